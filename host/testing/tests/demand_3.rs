//! Demand 3 on the model, in short; and wrong models that the tester must notice.
use model::faults::{self, Fault};
use model::{Step, COMMITTED};
use std::panic::{catch_unwind, AssertUnwindSafe};
use testing::call::{formatted, Call, Model};
use testing::colliding::Kind;
use testing::history::{Seen, Tester, LONGEST};
use testing::ledger::commit_place;
use testing::maker::{Contents, Lengths, Maker};
use testing::rng::Rng;
use testing::tags::BYTE_TAGS;

const LENGTHS: [usize; 5] = [8192, 8192, 12288, 16384, 20480];

/// Histories up to this many checked calls, and their first violation.
fn histories(calls: u64, longest: u64, maker: fn(&mut Rng) -> Maker) -> Option<String> {
    let mut tester = Tester { store: &Model, exhaust: 0, longest, one_of: 1, seen: Seen::default() };
    tester.until(&mut Rng::new(8), calls, &LENGTHS, maker).err().map(|v| v.what)
}

fn any_maker(r: &mut Rng) -> Maker {
    match r.below(4) {
        0 => Maker::full_sectors(r),
        1 => Maker::cut_sweeps(r),
        _ => Maker::rich(r),
    }
}

/// Old data full of false records.
fn record_marks(r: &mut Rng) -> Maker {
    Maker { contents: Contents::RecordMarks, ..Maker::cut_sweeps(r) }
}

/// The longest names, whose end is the last byte of their 64, and many cuts.
fn long_names(_: &mut Rng) -> Maker {
    Maker { names: vec![vec![b'Z'; 63], b"seven77".to_vec()], due: 75, ..Maker::short(0) }
}

/// Many markers, and many cuts.
fn markers(r: &mut Rng) -> Maker {
    Maker { cut: 60, ..Maker::with_markers(r) }
}

/// Sweeps that erase, and many cuts.
fn erases(r: &mut Rng) -> Maker {
    Maker { lengths: Lengths::Uniform(r.of(&[1360, 3000])), weights: [40, 5, 55, 0, 0, 0, 0], ..markers(r) }
}

fn mixed(r: &mut Rng) -> Maker {
    if r.chance(30) {
        markers(r)
    } else {
        any_maker(r)
    }
}

/// Names that collide in the library's table.
fn colliding_names(r: &mut Rng) -> Maker {
    Maker { names: Kind::Covered.names(r, 5), ..any_maker(r) }
}

/// The histories that come soonest to the place where this fault matters. Records in old
/// data matter at the first turn of the store, before records begin where sectors do.
fn histories_for(fault: Fault) -> (fn(&mut Rng) -> Maker, u64) {
    match fault {
        Fault::RecordMarkKept | Fault::MarkA4Kept | Fault::MarkA1Kept => (record_marks, 60),
        Fault::NameEndAtOnce | Fault::NameEndsAtFfOnly => (long_names, LONGEST),
        Fault::MarkerOpenAtFfOnly => (markers, LONGEST),
        Fault::CutPastErase => (erases, LONGEST),
        Fault::BitsTakenForName => (colliding_names, LONGEST),
        _ => (any_maker, LONGEST),
    }
}

/// "bits only clear, mount answers 0, the ledger's files, list, get", on histories
/// with cuts; and that these histories come to the places that matter.
#[test]
fn histories_keep_demand_3() {
    let mut r = Rng::new(8);
    let mut tester = Tester { store: &Model, exhaust: 5, longest: LONGEST, one_of: 1, seen: Seen::default() };
    let mut run = |tester: &mut Tester<Model>, calls, maker: fn(&mut Rng) -> Maker| {
        let violation = tester.until(&mut r, calls, &LENGTHS, maker).err();
        assert_eq!(violation.map(|v| v.what), None);
    };
    run(&mut tester, 85_000, mixed);
    // a store is full only after many of these calls
    tester.exhaust = 0;
    run(&mut tester, 100_000, Maker::cut_sweeps);
    let seen = tester.seen;
    assert_eq!(seen.facts.broken.len(), 0, "{:?}", seen.facts.broken);
    for answer in ["put 0", "put 4", "put 28", "put 22", "sweep 0", "sweep 4", "mount 0", "mount 4", "remove 0"] {
        assert!(seen.answers.contains_key(answer), "no {answer}");
    }
    for part in
        ["T = N", "T = floor(h)", "last torn wrap", "last reserved", "CLEAN at 0", "head CLEAN at 0", "superseded 1"]
    {
        assert!(seen.facts.kinds.keys().any(|k| k.contains(part)), "no image with {part}");
    }
    for kind in ["put", "remove", "sweep", "mount"] {
        assert!(seen.inside[kind] > 0, "no {kind} cut inside a byte");
    }
    assert_eq!(seen.bytes.len(), BYTE_TAGS.len(), "{:?}", seen.bytes);
    assert!(seen.progress.puts >= 1_000 && seen.progress.refused > 0);
    assert!(seen.spaced >= 1_000, "{} images with a space in a name", seen.spaced);
}

/// The count that the ledger goes by is the commit's place in the step list.
#[test]
fn commit_places() {
    let mut r = Rng::new(3);
    let mut puts = 0;
    while puts < 500 {
        let (mut img, maker) = (formatted(8192), any_maker(&mut r));
        for _ in 0..30 {
            let call = maker.whole_call(&mut r, &img);
            if let Some(place) = commit_place(&img, &call) {
                let steps = call.plan(&img).expect("a put that isn't refused").steps;
                let commits = |s: &Step| matches!(s, Step::Program(a, COMMITTED) if a % 8 == 2);
                assert_eq!(steps.iter().rposition(commits), Some(place as usize - 1));
                puts += 1;
            }
            call.run(&mut img);
            Call::Mount(testing::ALL).run(&mut img);
        }
    }
}

/// Each wrong model is noticed, and so is the other reading of "its next program step": a
/// violation, or a panic where it trips over the image it made itself.
#[test]
fn faults_are_noticed() {
    for fault in Fault::ALL.into_iter().chain([Fault::CutPastErase]) {
        let (maker, longest) = histories_for(fault);
        let run = || faults::with(fault, || histories(400_000, longest, maker));
        let unnoticed = matches!(catch_unwind(AssertUnwindSafe(run)), Ok(None));
        assert!(!unnoticed, "{fault:?} is not noticed");
    }
}
