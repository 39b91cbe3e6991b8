//! The power cut at every step and inside its byte, through the C interface: random
//! histories of all calls against the ledger.
//!   cuts [CALLS [SEED [OF_1000]]]
//! Of a thousand calls so many are tried at every allowance (long ones at both ends and
//! a sample), and there at every subset of the bits that the next step would clear (of
//! more than four bits a sample), each followed by cut mounts; after each of them a whole
//! mount, list and get must give the ledger. The others are cut somewhere or not at
//! all. A library can't be cut inside a byte: the test writes that byte, behind the
//! call, by the list of steps.
//! After every put with answer 0, on a copy, the sweeps that K6 promises to get past all
//! records of the head's sector; in histories of many tiny files too. In one history of
//! five, and in half of those, the names collide in the library's table.
use testing::argument;
use testing::c_calls::Library;
use testing::history::{Seen, Tester, Violation, LONGEST};
use testing::maker::Maker;
use testing::rng::Rng;
use testing::tags::BYTE_TAGS;

const LENGTHS: [usize; 9] = [8192, 8192, 8192, 12288, 12288, 16384, 20480, 32768, 65536];
/// For stores that have to be filled.
const SHORT: [usize; 4] = [8192, 8192, 12288, 16384];
/// Few, for long histories come to more kinds of image in the same time.
const OF_1000: u64 = 3;
/// The images that the histories have to come to.
const AIMED: [&str; 11] = [
    "T = floor(h)",
    "T = floor(h) | lost bytes, first a cleaned mark",
    "T = N",
    "turned at N",
    "next CLEAN at 0",
    "next CLEAN, later sector",
    "next CLEAN, same sector",
    "head CLEAN",
    "last torn wrap",
    "last reserved",
    "superseded 1",
];

/// The calls that have to be cut inside a byte.
const INSIDE: [&str; 4] = ["put", "remove", "sweep", "mount"];

/// Some histories are of names that collide in the library's table.
fn maker(r: &mut Rng) -> Maker {
    let maker = match r.below(7) {
        0 => Maker::full_sectors(r),
        1 | 2 => Maker::cut_sweeps(r),
        3 => Maker { cut: 30, ..Maker::full_sectors(r) },
        4 => Maker::long_records(r),
        5 => Maker::with_markers(r),
        _ => Maker::rich(r),
    };
    maker.sometimes_colliding(r, 20)
}

/// How often each aimed image was seen, and each aimed cut. Gives how many never were.
fn aimed(seen: &Seen) -> usize {
    let kinds = |part: &str| seen.facts.kinds.iter().filter(|k| k.0.contains(part)).map(|k| k.1).sum::<u64>();
    let images = AIMED.iter().map(|part| (format!("images with {part}"), kinds(part)));
    let bytes = BYTE_TAGS.iter().map(|tag| (format!("images with {tag}"), seen.bytes.get(tag).copied().unwrap_or(0)));
    let inside = INSIDE
        .iter()
        .map(|kind| (format!("times {kind}, cut inside a byte"), seen.inside.get(kind).copied().unwrap_or(0)));
    let names = [("colliding names", seen.collisions.images()), ("a space in a name", seen.spaced)];
    let names = names.map(|(part, count)| (format!("images with {part}"), count));
    let counts: Vec<(String, u64)> = images.chain(bytes).chain(names).chain(inside).collect();
    for (what, count) in &counts {
        println!("{count:>9} {what}");
    }
    counts.iter().filter(|c| c.1 == 0).count()
}

/// Histories of all kinds; then some whose sweeps are cut until the store is full, and
/// some of many tiny files: these have to be long, and list and get are slow there. The
/// first violation ends them. Gives how many calls were each followed by a check.
fn histories(tester: &mut Tester<Library>, r: &mut Rng, calls: u64) -> Result<u64, Violation> {
    tester.until(r, calls, &LENGTHS, maker)?;
    tester.exhaust = 0;
    tester.until(r, tester.seen.checked + calls / 8, &SHORT, Maker::cut_sweeps)?;
    let checked = tester.seen.checked;
    (tester.longest, tester.one_of) = (600, 50);
    tester.until(r, checked + calls / 16, &SHORT, |r| Maker::tiny_files(r).sometimes_colliding(r, 50))?;
    Ok(checked)
}

fn main() {
    let (calls, seed, exhaust) = (argument(1, 200_000), argument(2, 1), argument(3, OF_1000));
    let store = Library::new(library::functions());
    println!("library: {}", library::path().display());
    let mut tester = Tester { store: &store, exhaust, longest: LONGEST, one_of: 1, seen: Seen::default() };
    let checked = histories(&mut tester, &mut Rng::new(seed), calls).unwrap_or_else(|v| {
        print!("{}", v.show(&store));
        std::process::exit(1)
    });
    for (answer, times) in &tester.seen.answers {
        println!("{times:>9} {answer}");
    }
    print!("{}", tester.seen.collisions);
    let missing = aimed(&tester.seen);
    println!("{missing} kinds of image or cut not seen{}", if missing > 0 { ": more calls are needed" } else { "" });
    let progress = &tester.seen.progress;
    println!("{progress}");
    println!("{checked} calls, each followed by a mount, list and get: 0 violations");
    // the promise has to be tried where 01's rule falls short of it
    if missing > 0 || progress.puts == 0 || progress.refused == 0 {
        std::process::exit(1);
    }
}
