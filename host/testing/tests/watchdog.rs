//! K9 on the model: the longest mounts against the bound, and put's steps by case.
use model::{Reply, Step};
use std::collections::BTreeMap;
use testing::bounds::{check_each, mount_by_head, mount_most};
use testing::call::{Call, Model, Store};
use testing::cut;
use testing::ledger::{commit_place, World};
use testing::maker::Maker;
use testing::rng::Rng;
use testing::worst::{image, Before};
use testing::ALL;

/// The steps of the longest mount that is made for this length.
fn longest(n: usize) -> u64 {
    let mount = |before| {
        let (mut img, data) = image(&Model, n, before);
        let plan = Call::Mount(ALL).plan(&img).expect("it is not refused");
        assert_eq!(check_each(n, &Call::Mount(ALL), &plan.steps), Ok(()));
        let reply = Model.call(&mut img, &Call::Mount(ALL)).expect("steps as reported");
        assert_eq!(reply.answer, 0);
        assert_eq!(reply.report.files, 1, "the file is there");
        assert!(reply.steps <= mount_by_head(n as u64, data as u64));
        let erases = plan.steps.iter().filter(|s| matches!(s, Step::Erase(_))).count();
        println!(
            "N {n}, {before:?}: {data} bytes at the head, {} steps ({erases} erases), bound {}",
            reply.steps,
            mount_most(n as u64)
        );
        reply.steps
    };
    // in a small image the filler takes more room than it gives
    let filled = if n > 16384 { mount(Before::Filler) } else { 0 };
    mount(Before::Nothing).max(filled)
}

/// Within the bound, and more than a bound of N/32 would allow: the file is a third of
/// what the head's sector leaves.
#[test]
fn longest_mounts_are_within_the_bound() {
    for n in [8192, 12288, 16384, 65536, 1 << 20, 16 << 20] {
        let (n, steps) = (n as u64, longest(n));
        assert!(steps <= mount_most(n), "N {n}: {steps} steps");
        if n >= 65536 {
            assert!(steps >= (n - 4096) / 24, "N {n}: {steps} steps");
            assert!(steps > n / 32 + n / 4096 + 8, "N {n}: {steps} steps");
        }
    }
}

/// A put's steps beyond its n + d bytes, and whether it wrote a marker.
type Case = (u64, bool);
const CASES: [Case; 6] = [(10, false), (11, false), (12, false), (13, true), (14, true), (15, true)];

/// The case of a put that was done on this image.
fn case(img: &[u8], call: &Call, reply: &Reply) -> Option<Case> {
    let Call::Put(name, data, _) = call else { return None };
    let bytes = (name.len() + data.len()) as u64;
    // up to the commit there are 10 or, with an old file of FC, 11; a marker adds 3
    let marker = commit_place(img, call)? - bytes >= 13;
    (reply.answer == 0).then(|| (reply.steps - bytes, marker))
}

/// All six cases of a put occur, and no others (World holds every call to its number).
#[test]
fn puts_take_their_number_of_steps() {
    let mut r = Rng::new(9);
    let mut seen: BTreeMap<Case, u64> = BTreeMap::new();
    for _ in 0..4000 {
        let mut w = World::new(r.of(&[8192, 12288]));
        let maker = if r.chance(50) { Maker::full_sectors(&mut r) } else { Maker::rich(&mut r) };
        for _ in 0..60 {
            let call = maker.call(&mut r, &w.img);
            let made = cut::sometimes(&mut r, &w.img, call);
            let before = w.img.clone();
            let (reply, _) = w.step(&Model, &made).expect("the bounds hold");
            if let Some(case) = case(&before, &made.call, &reply) {
                *seen.entry(case).or_default() += 1;
            }
        }
        if CASES.iter().all(|case| seen.get(case).is_some_and(|&n| n >= 3)) {
            break;
        }
    }
    println!("steps beyond n + d, and a marker: {seen:?}");
    assert!(seen.keys().eq(&CASES), "{seen:?}");
}
