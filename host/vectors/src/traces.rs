//! Vectors of request K7 (crates/spec/specs/Trace.antt): replays of planned and damaged traces,
//! and the search for the first image that mount would refuse.
use crate::collect::{Collection, EACH};
use crate::emit::{pieces, Vector};
use model::*;
use testing::aimed::{tight, unfinished_last};
use testing::call::Call;
use testing::images::{damage, of_history};
use testing::maker::{Contents, Maker};
use testing::rng::Rng;
use testing::traces::{damaged, planned_log, writing_call, Log, WAYS};
use testing::ALL;

/// What a vector of a trace computes, behind the rest of the helper.
pub const HELPER: &str = "
-- a replay: its three numbers, and every byte of the image
unfoldable pub check_replay : List Piece → Planner.Slices → ℕ → ℕ → ℕ → List Piece → Bool
unfolding NAMES
check_replay before s answer position stop after =
    let r = Trace.replay_trace (build before) s in
    eqb r.answer answer && eqb r.position position && eqb r.stop stop && Basics.same r.image (build after)

-- the search for the first refused image
unfoldable pub check_watch : List Piece → Planner.Slices → ℕ → Bool → ℕ → List Piece → Bool
unfolding NAMES
check_watch before s answer there count after =
    let r = Trace.watch_trace (build before) s in
    eqb r.answer answer && agree r.there there && eqb r.count count && Basics.same r.image (build after)
";

/// What these vectors must show, besides every way to damage an entry.
pub const TRACE_VECTOR_TAGS: [&str; 10] = [
    "trace: to its end",
    "trace: stop 1",
    "trace: stop 2",
    "trace: stop 3",
    "trace: refused",
    "trace: mount refuses at 0",
    "trace: mount refuses later",
    "trace: mount refuses at the stop",
    "trace: mount refuses at the end",
    "trace: mount refuses none",
];
const REPLAY: &str = "replay";
const WATCH: &str = "watch";
/// A step costs antt as much as its address.
const MOST_ENTRIES: usize = 24;
const MOST_WATCHED: usize = 12;
const IMAGES: u64 = 40;
const DRAWS: u64 = 400;

fn list(slots: &[u32]) -> String {
    let numbers: String = slots.iter().map(|n| format!("{n} ∷ ")).collect();
    format!("({numbers}[])")
}

fn lent(log: &Log) -> String {
    let [kinds, addresses, bytes] = log.trace().map(list);
    format!("(lent {kinds} {addresses} {bytes})")
}

fn replayed(c: &mut Collection, img: &[u8], log: &Log, way: Option<&'static str>) {
    let mut after = img.to_vec();
    let told = replay(&mut after, log.trace());
    let mut tags: Vec<&'static str> = way.into_iter().collect();
    tags.push(match told {
        Replayed { answer: 22, .. } => "trace: refused",
        Replayed { stop, .. } => TRACE_VECTOR_TAGS[stop as usize],
    });
    let Replayed { answer, position, stop } = told;
    let text = format!("check_replay {} {} {answer} {position} {stop} {}", pieces(img), lent(log), pieces(&after));
    c.add(Vector { function: "check_replay", text, kind: REPLAY, answer, tags, source: REPLAY });
}

fn watched(c: &mut Collection, img: &[u8], log: &Log) {
    let mut after = img.to_vec();
    let told = first_refused(&mut after, log.trace());
    let Refusing { answer, there, count } = told;
    let mut tags = vec![match told {
        Refusing { answer: 22, .. } => "trace: refused",
        Refusing { there: false, .. } => "trace: mount refuses none",
        Refusing { count: 0, .. } => "trace: mount refuses at 0",
        _ => "trace: mount refuses later",
    }];
    let whole = replay(&mut img.to_vec(), log.trace());
    if there && count > 0 && count == whole.position {
        tags.push(if whole.stop == 0 { "trace: mount refuses at the end" } else { "trace: mount refuses at the stop" });
    }
    let text = format!("check_watch {} {} {answer} {there} {count} {}", pieces(img), lent(log), pieces(&after));
    c.add(Vector { function: "check_watch", text, kind: WATCH, answer, tags, source: WATCH });
}

fn image(r: &mut Rng) -> Vec<u8> {
    let maker = Maker { contents: Contents::Plain, ..Maker::short(5) };
    let mut img = if r.chance(30) { tight(r, 8192) } else { of_history(r, 8192, &maker, 12) };
    match r.below(8) {
        0 => damage(r, &mut img),
        1 | 2 => unfinished_last(r, &mut img),
        3 => img.fill(0xFF),
        _ => {}
    }
    img
}

/// Slices of unequal length, and images of a bad one.
fn refused(c: &mut Collection, img: &[u8], log: &Log) {
    for slice in 0..3 {
        let mut log = log.clone();
        [&mut log.kinds, &mut log.addresses, &mut log.bytes].into_iter().nth(slice).expect("one of three").push(1);
        replayed(c, img, &log, None);
        watched(c, img, &log);
    }
    for n in [0, 4096, 8184] {
        replayed(c, &img[..n], log, None);
        watched(c, &img[..n], log);
    }
}

pub fn add(c: &mut Collection) {
    let mut r = Rng::new(9);
    let mut images = 0;
    for _ in 0..DRAWS {
        let img = image(&mut r);
        let call = if r.chance(30) { Call::Mount(ALL) } else { writing_call(&mut r, &img) };
        let log = planned_log(&img, &call);
        if log.is_empty() || log.len() > MOST_ENTRIES || images >= IMAGES {
            continue;
        }
        images += 1;
        replayed(c, &img, &log, None);
        if images == 1 {
            refused(c, &img, &log);
        }
        for (way, name) in WAYS.into_iter().enumerate() {
            let i = r.below(log.len() as u64) as usize;
            let log = damaged(&mut r, &img, &log, i, way);
            if images <= 6 {
                replayed(c, &img, &log, Some(name));
            }
            if log.len() <= MOST_WATCHED && r.chance(25) {
                watched(c, &img, &log);
            }
        }
    }
    let formatted = testing::call::formatted(8192);
    let log = planned_log(&formatted, &Call::Put(b"a".to_vec(), vec![1], ALL));
    for img in [vec![0xFF; 8192], vec![0x00; 8192]] {
        replayed(c, &img, &log, None);
        watched(c, &img, &log);
    }
    last_looks(c, &formatted);
}

/// Only the image at the stop, or behind the last entry, is refused: a byte of the free run is programmed.
fn last_looks(c: &mut Collection, img: &[u8]) {
    for address in [16, 40, 4096] {
        let mut log = Log::default();
        log.push([1, address, 0x00]);
        watched(c, img, &log);
        log.push([1, address, 0xFF]);
        watched(c, img, &log);
    }
}

pub fn lacking(c: &Collection) -> Vec<String> {
    let tags = TRACE_VECTOR_TAGS.into_iter().chain(WAYS).map(|t| format!("tag {t}"));
    tags.filter(|what| c.count(what) < EACH.min(2)).collect()
}
