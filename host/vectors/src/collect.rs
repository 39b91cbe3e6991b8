//! Which runs of the model become vectors.
use crate::emit::{equation, Vector};
use crate::held::{plain, told, Told};
use crate::histories;
use crate::lengths;
use crate::names;
use crate::orders::{self, ORDERS};
use crate::plans;
use crate::required::{REQUIRED, SOURCES};
use crate::rooms::{self, ROOM_STATES};
use crate::spaces;
use crate::traces;
use crate::verdicts;
use model::*;
use std::collections::BTreeMap;
use std::fmt::Write as _;
use testing::aimed::{behind_torn, dirty_free_run, reserved_byte, superseded, superseded_head, tight, unfinished_last};
use testing::call::{Call, ANSWERS};
use testing::images::{built, damage, of_history};
use testing::maker::{Contents, Lengths, Maker};
use testing::rng::Rng;
use testing::tags::{BYTE_TAGS, ROOM_TAGS};
use testing::{tags, ALL};

/// How many vectors each of these needs at least.
pub const EACH: u64 = 3;
/// Below this many vectors a tag is rare.
const RARE: u64 = 12;
const HISTORIES: u64 = 80;
/// A program step costs antt as much as its address: no long step lists.
pub const MOST_STEPS: u64 = 150;
pub const MOST_TEXT: usize = 9_000;

pub struct Collection {
    pub vectors: Vec<Vector>,
    /// vectors of each kind, with all its tags
    keys: BTreeMap<String, u64>,
    counts: BTreeMap<String, u64>,
}

impl Collection {
    pub fn count(&self, what: &str) -> u64 {
        self.counts.get(what).copied().unwrap_or(0)
    }

    pub fn add(&mut self, v: Vector) {
        let counted = [format!("{} {}", v.kind, v.answer), format!("source {}", v.source)];
        for what in counted.into_iter().chain(v.tags.iter().map(|t| format!("tag {t}"))) {
            *self.counts.entry(what).or_default() += 1;
        }
        self.vectors.push(v);
    }

    /// This call on this image, unless there are enough of its kind.
    fn try_call(&mut self, img: &[u8], told: &Told, source: &'static str) {
        let call = &told.made.call;
        // a format is no call of a history: it is told no byte
        let whole = plain(call.clone());
        let told = if let Call::Format(_) = call { &whole } else { told };
        let mut after = img.to_vec();
        let reply = told.run(&mut after);
        if call.need(img) > 2 * MOST_STEPS || reply.steps > MOST_STEPS {
            return;
        }
        let (kind, answer) = (call.kind(), reply.answer);
        let mut tags = tags::of(img, call, &reply, &after);
        tags.extend(told.tag);
        let key = format!("{kind} {answer} {}", tags.join(", "));
        let enough = self.keys.get(&key).copied().unwrap_or(0) >= alike(kind, answer);
        let own = BREAKS.iter().any(|b| b.0 == source);
        if !own && (enough || !self.wanted(kind, answer, &tags)) {
            return;
        }
        let (function, text) = equation(img, call, told.byte, &reply, &after);
        if text.len() > MOST_TEXT {
            return;
        }
        *self.keys.entry(key).or_default() += 1;
        self.add(Vector { function, text, kind, answer, tags, source });
    }

    /// There is room for one more with this answer, or a tag is still rare.
    fn wanted(&self, kind: &str, answer: u32, tags: &[&str]) -> bool {
        let most = match (kind, answer) {
            ("mount", 0 | 4) => 130,
            ("mount", 5) => 90,
            ("put" | "sweep", 0 | 4) => 60,
            (_, 5 | 6 | 16 | 22) => 9,
            _ => 20,
        };
        let told = matches!(answer, 0 | 4 | 28);
        self.count(&format!("{kind} {answer}")) < most
            || told && tags.iter().any(|t| self.count(&format!("tag {t}")) < RARE)
    }

    /// What has too few vectors.
    pub fn missing(&self) -> Vec<String> {
        let answers = ANSWERS.iter().flat_map(|(kind, all)| all.iter().map(move |a| format!("{kind} {a}")));
        let tags = REQUIRED.iter().chain(&BYTE_TAGS).chain(&ROOM_TAGS).chain(&ROOM_STATES).chain(&ORDERS);
        let tags = tags.map(|t| format!("tag {t}"));
        let sources = SOURCES.iter().map(|s| format!("source {s}"));
        let lacking = answers.chain(tags).chain(sources).filter(|w| self.count(w) < EACH);
        let requests =
            [plans::lacking, spaces::lacking, names::lacking, lengths::lacking, traces::lacking, verdicts::lacking];
        lacking.chain(requests.iter().flat_map(|lacking| lacking(self))).collect()
    }

    /// The coverage: calls by answers, then tags, sources and histories.
    pub fn table(&self) -> String {
        let columns = [0, 2, 4, 5, 6, 16, 22, 28];
        let mut s = format!("{:10}", "answer");
        for a in columns {
            write!(s, "{a:>6}").unwrap();
        }
        for (kind, _) in ANSWERS {
            write!(s, "\n{kind:10}").unwrap();
            for a in columns {
                match self.count(&format!("{kind} {a}")) {
                    0 => s += "     -",
                    n => write!(s, "{n:>6}").unwrap(),
                }
            }
        }
        s.push('\n');
        for (what, n) in &self.counts {
            if what.starts_with("tag ")
                || what.starts_with("source ")
                || what.starts_with("history")
                || what.starts_with("place")
                || what.starts_with("name")
            {
                writeln!(s, "{n:>6}  {what}").unwrap();
            }
        }
        s
    }

    /// Counted beside the vectors: calls in histories and the like.
    pub fn note(&mut self, what: &str, n: u64) {
        *self.counts.entry(what.into()).or_default() += n;
    }
}

/// How many vectors of one kind with the same tags are wanted.
fn alike(kind: &str, answer: u32) -> u64 {
    match (kind, answer) {
        ("mount", 5) => 45,
        (_, 5 | 6 | 22) => 9,
        ("mount" | "sweep" | "put", 0 | 4) => 3,
        _ => 2,
    }
}

/// Calls on images in the middle of histories.
fn from_history(r: &mut Rng, c: &mut Collection) {
    let n = r.of(&[8192, 8192, 8192, 8192, 12288]);
    let mut maker = Maker::short(r.of(&[5, 30, 60]));
    if r.chance(40) {
        // contents that fill the image to a boundary
        maker.lengths = Lengths::Rich { small: r.chance(50) };
    } else if r.chance(30) {
        maker.lengths = Lengths::Uniform(r.of(&[512, 1024, 2048, 1360]));
    }
    maker.contents = Contents::Plain;
    let mut img = testing::call::formatted(n);
    for _ in 0..r.below(40) {
        let call = maker.call(r, &img);
        let told = told(r, &img, call);
        if r.chance(12) {
            c.try_call(&img, &told, "history");
        }
        told.run(&mut img);
        if r.chance(60) {
            mount(&mut img, ALL);
        }
    }
    let last = Maker::short(5);
    for _ in 0..3 {
        let call = last.call(r, &img);
        c.try_call(&img, &told(r, &img, call), "history");
    }
    repairs(r, c, &img, "history");
}

/// A mount, whole or cut, and one other call.
fn repairs(r: &mut Rng, c: &mut Collection, img: &[u8], source: &'static str) {
    let need = Call::Mount(ALL).need(img);
    if need > 0 || r.chance(30) {
        let k = if r.chance(40) { ALL } else { r.below(need + 1) };
        c.try_call(img, &told(r, img, Call::Mount(k)), source);
    }
    let call = Maker::short(5).call(r, img);
    c.try_call(img, &told(r, img, call), source);
}

/// A put cut at its first steps, where it may tear a marker, or a cut sweep, or nothing.
fn cut_before(r: &mut Rng, img: &mut [u8]) {
    let call = match r.below(4) {
        0 => Call::Put(b"dose".to_vec(), vec![0x33; r.of(&[3, 24, 40])], r.below(5)),
        1 => Call::Sweep(Call::Sweep(ALL).need(img).saturating_sub(r.below(12))),
        2 => Call::Sweep(r.below(60)),
        _ => return,
    };
    told(r, img, call).run(img);
}

/// Calls on images that are built, damaged or aimed at a rule.
fn from_other(r: &mut Rng, c: &mut Collection) {
    let n = r.of(&[8192, 8192, 8192, 12288]);
    let mut img = if r.chance(60) { built(r, n, true) } else { of_history(r, n, &Maker::short(20), 25) };
    let source = match r.below(5) {
        0 => {
            damage(r, &mut img);
            "damaged"
        }
        1 => {
            dirty_free_run(r, &mut img);
            "dirty"
        }
        2 => {
            superseded(r, &mut img);
            if r.chance(20) {
                img = superseded_head(r, n);
            }
            if r.chance(70) {
                unfinished_last(r, &mut img);
            }
            "built"
        }
        3 => {
            img = tight(r, n);
            cut_before(r, &mut img);
            "tight"
        }
        _ => "built",
    };
    repairs(r, c, &img, source);
}

/// Makes a legal image break one rule; false if it can't.
type Break = fn(&mut Rng, &mut [u8]) -> bool;

/// A refusal says nothing of its cause, so these get vectors of their own.
const BREAKS: [(&str, Break); 2] = [("reserved byte", reserved_byte), ("behind torn", behind_torn)];

fn broken(c: &mut Collection) {
    let mut r = Rng::new(2);
    for (source, break_it) in BREAKS {
        while c.count(&format!("source {source}")) < RARE {
            let mut img =
                if r.chance(50) { tight(&mut r, 8192) } else { of_history(&mut r, 8192, &Maker::short(0), 20) };
            if break_it(&mut r, &mut img) {
                c.try_call(&img, &plain(Call::Mount(ALL)), source);
            }
        }
    }
}

fn bad_lengths(c: &mut Collection) {
    let name = || b"a".to_vec();
    for n in [0, 7, 4096, 8193, 8184, 12289] {
        let img = vec![0xFF; n];
        let calls = [
            Call::Mount(5),
            Call::Put(name(), vec![1], 50),
            Call::Get(name()),
            Call::List(0),
            Call::Remove(name(), 1),
            Call::Sweep(9),
            Call::Format(30),
        ];
        for call in calls {
            c.try_call(&img, &plain(call), "bad length");
        }
    }
}

/// The vectors; the same ones in every run.
pub fn collect() -> Collection {
    let mut r = Rng::new(1);
    let mut c = Collection { vectors: Vec::new(), keys: BTreeMap::new(), counts: BTreeMap::new() };
    bad_lengths(&mut c);
    for _ in 0..6000 {
        if r.chance(50) {
            from_history(&mut r, &mut c);
        } else {
            from_other(&mut r, &mut c);
        }
    }
    broken(&mut c);
    rooms::places(&mut r, &mut c);
    rooms::add(&mut r, &mut c);
    histories::add(&mut r, &mut c, HISTORIES);
    orders::add(&mut c);
    plans::add(&mut c);
    spaces::add(&mut c);
    lengths::add(&mut c);
    names::add(&mut c);
    traces::add(&mut c);
    verdicts::add(&mut c);
    c
}

#[cfg(test)]
mod tests {
    use super::*;

    #[test]
    fn every_kind_has_vectors() {
        let c = collect();
        assert_eq!(c.missing(), Vec::<String>::new());
        assert!(c.vectors.len() >= 1000, "{} vectors", c.vectors.len());
    }

    #[test]
    fn a_run_repeats() {
        let texts = || collect().vectors.into_iter().map(|v| v.text).collect::<Vec<_>>();
        assert!(texts() == texts());
    }
}
