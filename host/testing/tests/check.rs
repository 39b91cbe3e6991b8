//! K13's check by the model: against its mount on images with one fault and with many, and on images worked out by hand.
use model::*;
use std::collections::BTreeMap;
use testing::faulty::{faulty, kind_of, three, VERDICTS};
use testing::rng::Rng;
use testing::ALL;

/// "It is broken exactly if mount refuses with 5 or 6"; settled exactly if mount has no step.
#[test]
fn as_mount_does() {
    let mut r = Rng::new(13);
    let mut seen: BTreeMap<&str, u64> = BTreeMap::new();
    for _ in 0..20_000 {
        let n = r.of(&[8192, 8192, 12288, 16384]);
        let img = faulty(&mut r, n, false);
        let reply = mount(&mut img.clone(), ALL);
        let verdict = check(&img).expect("a good length");
        let right = match verdict {
            Verdict::Settled => reply.answer == 0 && reply.steps == 0,
            Verdict::Recovery(number) => (1..=4).contains(&number) && reply.answer == 0 && reply.steps > 0,
            Verdict::Broken(..) => matches!(reply.answer, 5 | 6),
        };
        assert!(right, "{verdict}, and mount answers {} with {} steps", reply.answer, reply.steps);
        *seen.entry(kind_of(Ok(verdict))).or_default() += 1;
    }
    for kind in &VERDICTS[1..] {
        assert!(seen.get(kind).is_some_and(|&n| n >= 50), "{kind}: {:?}", seen.get(kind));
    }
}

fn line(edits: &[(usize, &[u8])]) -> String {
    let mut img = three();
    for (at, bytes) in edits {
        img[*at..at + bytes.len()].copy_from_slice(bytes);
    }
    check(&img).expect("a good length").to_string()
}

#[test]
fn worked_out_by_hand() {
    let cases: [(&str, &[(usize, &[u8])]); 18] = [
        ("settled", &[]),
        ("recovery 1", &[(0, &[0xA0])]),
        ("recovery 2", &[(16, &[0xA0])]),
        ("recovery 3", &[(88, &[0xA5])]),
        // "a" again, F8 beside FC
        ("recovery 4", &[(42, &[MIGRATING]), (48, b"a")]),
        ("broken head 0", &[(0, &[0xFF, 0xFF])]),
        ("broken header 40", &[(43, &[0x7F])]),
        ("broken header 40", &[(40, &[0xA3])]),
        ("broken name 40", &[(48, b" ")]),
        // of two of one name the later
        ("broken name 64", &[(72, b"a")]),
        ("broken end 64", &[(68, &[0xFF, 0xFF])]),
        ("broken mark 64", &[(64, &[0xA0])]),
        // a marker with floor(h) = 0
        ("broken mark 88", &[(88, &[0xFA, 0x5A, 0xF0])]),
        ("broken unfinished 88", &[(88, &[0xFA])]),
        // something stands behind a torn record
        ("broken unfinished 88", &[(88, &[0xA5]), (104, &[0x33])]),
        // unfinished before header: its reserved byte, and something behind it
        ("broken unfinished 88", &[(88, &[0xA5, 0xFF, 0xFF, 0x7F]), (104, &[0x33])]),
        ("broken header 88", &[(88, &[0xA5, 0xFF, 0xFF, 0x7F])]),
        ("broken free 8000", &[(8000, &[0x00])]),
    ];
    for (expected, edits) in cases {
        assert_eq!(line(edits), expected, "{edits:?}");
    }
    // the chain before the free run, and within it the first fault
    assert_eq!(line(&[(8000, &[0x00]), (72, b"a"), (43, &[0x7F])]), "broken header 40");
    assert_eq!(check(&[0xFF; 4096]), Err(22));
    assert_eq!(check(&[0xFF; 8193]), Err(22));
}
