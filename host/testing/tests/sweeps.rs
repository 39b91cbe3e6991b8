//! K6 on the model: the store that got stuck under 01's rule, the promise under K6's,
//! and wrong rules that the promise must notice.
use model::faults::{self, Fault};
use model::{mount, put, remove, sweep, Reply, Report, Space};
use testing::call::{formatted, Call, Model};
use testing::maker::Maker;
use testing::progress::{gets_past, Progress};
use testing::rng::Rng;
use testing::stuck::{three_files, tiny_files};
use testing::ALL;

/// The same record is in the way of every further sweep: 28, and nothing is changed.
fn is_stuck(img: &mut [u8]) {
    let before = img.to_vec();
    for _ in 0..3 {
        assert_eq!(sweep(img, ALL), Reply::refusal(28));
        assert_eq!(mount(img, ALL).steps, 0);
    }
    assert_eq!(img, before);
}

#[test]
fn the_rule_of_01_gets_stuck() {
    for stuck in [three_files(), tiny_files()] {
        let mut img = formatted(8192);
        faults::with(Fault::RoomAsIn01, || {
            for call in &stuck.puts {
                assert_eq!(call.run(&mut img).answer, 0);
            }
            assert!(gets_past(&Model, &img).is_err());
            assert!((0..3).any(|_| sweep(&mut img, ALL).answer == 28));
            is_stuck(&mut img);
            assert_eq!(put(&mut img, b"x", b"", ALL), Reply::refusal(28));
        });
    }
}

#[test]
fn the_new_rule_refuses_the_put() {
    for stuck in [three_files(), tiny_files()] {
        let mut img = formatted(8192);
        for call in &stuck.puts[..stuck.taken] {
            assert_eq!(call.run(&mut img).answer, 0);
            gets_past(&Model, &img).expect("not stuck");
        }
        for call in &stuck.puts[stuck.taken..] {
            assert_eq!(call.run(&mut img), Reply::refusal(28));
        }
        let (r, _) = gets_past(&Model, &img).expect("not stuck");
        assert_eq!(r, 1 + stuck.taken as u64);
    }
}

/// Not promised: sweeps that are cut. Each copy cut behind its header takes the room of
/// 2,040 bytes, until there is none for the whole copy. A remove ends it.
#[test]
fn cut_sweeps_can_fill_a_store() {
    let mut img = formatted(8192);
    assert_eq!(put(&mut img, b"dose", &[7; 2024], ALL).answer, 0);
    // the first sweep moves format's record in 4 steps and marks the old file F8 in 1; a
    // copy's header takes 7
    for (allowance, tail) in [(12, 4096), (7, 6136), (7, 8176)] {
        assert_eq!(sweep(&mut img, allowance).answer, 4);
        let report = Report { head: 16, tail, files: 1 };
        // the file has 2,040 bytes, and so has each copy that was cut
        let space = Space { live: 2040, dead: tail - 2056, free: 8192 - tail, lost: 16 };
        assert_eq!(mount(&mut img, ALL), Reply { report, space, steps: 4, ..Reply::default() });
    }
    is_stuck(&mut img);
    assert_eq!(put(&mut img, b"x", b"", ALL), Reply::refusal(28));
    assert_eq!(remove(&mut img, b"dose", ALL).answer, 0);
    // head at 6,136 with one dead copy; the first sector is free again
    let space = Space { live: 0, dead: 2040, free: 4112, lost: 2040 };
    assert_eq!(sweep(&mut img, ALL), Reply { moves: 3, space, steps: 12, ..Reply::default() });
    // a small file, whose move takes the head to 0, and all room is back
    assert_eq!(put(&mut img, b"x", b"", ALL).answer, 0);
    assert_eq!(sweep(&mut img, ALL).answer, 0);
    assert_eq!(put(&mut img, b"dose", &[7; 2024], ALL).answer, 0);
}

/// What the promise alone says of random histories with this wrong rule.
fn promise_with(fault: Fault, puts: u64) -> Result<(), String> {
    let mut r = Rng::new(6);
    let mut tried = 0;
    while tried < puts {
        let maker = if r.chance(30) { Maker::tiny_files(&mut r) } else { Maker::full_sectors(&mut r) };
        let mut img = formatted(r.of(&[8192, 12288]));
        for _ in 0..200 {
            let call = maker.call(&mut r, &img);
            let reply = faults::with(fault, || call.run(&mut img));
            if reply.answer == 0 && matches!(call, Call::Put(..)) {
                gets_past(&Model, &img)?;
                tried += 1;
            }
        }
    }
    Ok(())
}

#[test]
fn the_promise_notices_wrong_rules() {
    for fault in [Fault::RoomAsIn01, Fault::OthersNotCounted] {
        assert!(promise_with(fault, 20_000).is_err(), "{fault:?} is not noticed");
    }
}

/// The promise alone holds without the new one: two of the largest are each at least as
/// long. The room behind the copies, which `Progress` looks at too, is what is lost.
#[test]
fn the_promise_needs_the_others_alone() {
    assert_eq!(promise_with(Fault::NewNotCounted, 4_000), Ok(()));
    let mut img = formatted(8192);
    let put = Call::Put(b"dose".to_vec(), vec![7; 2025], ALL);
    let reply = faults::with(Fault::NewNotCounted, || put.run(&mut img));
    assert_eq!(reply.answer, 0);
    assert!(gets_past(&Model, &img).is_ok());
    assert!(Progress::default().look(&Model, &put, &reply, &img).is_err());
}
