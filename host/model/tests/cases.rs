//! Every line of "Cases, N = 8,192", with K14's counts and the bytes worked out by hand.
use model::*;

const N: usize = 8192;
const ALL: u64 = u64::MAX;

/// The record that format writes, 16 bytes with its padding.
const FIRST: [u8; 16] = [0x00, 0x5A, 0x00, 0xFF, 0, 0, 0, 0, 0, 0xFF, 0xFF, 0xFF, 0xFF, 0xFF, 0xFF, 0xFF];
/// "At 16", after the put of "dose".
const DOSE: [u8; 24] = [
    0xA5, 0x5A, 0xFC, 0xFF, 0x03, 0x00, 0x00, 0x00, 0x64, 0x6F, 0x73, 0x65, 0x00, 0xFF, 0xFF, 0xFF, 0x01, 0x02, 0x03,
    0xFF, 0xFF, 0xFF, 0xFF, 0xFF,
];

/// An image that begins with these pieces and is FF from there on.
fn image(pieces: &[&[u8]]) -> Vec<u8> {
    let mut img = pieces.concat();
    img.resize(N, 0xFF);
    img
}

/// These bytes with some of them changed: (place, byte).
fn edited(bytes: &[u8], changes: &[(usize, u8)]) -> Vec<u8> {
    let mut v = bytes.to_vec();
    for &(at, b) in changes {
        v[at] = b;
    }
    v
}

fn fresh() -> Vec<u8> {
    let mut img = vec![0x33; N];
    assert_eq!(format(&mut img, ALL), Reply { steps: 2 + 8, ..Reply::default() });
    img
}

/// With the head at 0 and no turn: what isn't live below the tail is dead, all above it is free.
fn below(tail: u64, live: u64) -> Space {
    Space { live, dead: tail - live, free: N as u64 - tail, lost: 0 }
}

/// One "dose" of three bytes takes 24: the first goes to 16, the one that replaces it, in 19
/// steps, to 40.
fn put_dose(img: &mut [u8], data: &[u8; 3], allowance: u64, answer: u32, steps: u64) {
    let space = match (answer, steps) {
        (0, 17) => below(40, 24),
        (0, 19) => below(64, 24),
        _ => Space::default(),
    };
    assert_eq!(put(img, b"dose", data, allowance), Reply { space, steps, ..Reply::refusal(answer) });
}

fn dose() -> Vec<u8> {
    let mut img = fresh();
    put_dose(&mut img, &[1, 2, 3], ALL, 0, 17);
    img
}

fn mounts(img: &mut [u8], h: u64, t: u64, files: u64, steps: u64) {
    mounts_with(img, Report { head: h, tail: t, files }, 24 * files, steps);
}

/// So many bytes in files; the heads of these cases stand in the first sector.
fn mounts_with(img: &mut [u8], report: Report, live: u64, steps: u64) {
    let Report { head, tail, .. } = report;
    let space = Space { live, dead: tail - head - live, free: N as u64 - tail, lost: head };
    assert_eq!(mount(img, ALL), Reply { report, space, steps, ..Reply::default() });
}

fn gives(img: &[u8], name: &[u8], offset: u64, length: u64) {
    let extent = Extent { offset, length };
    assert_eq!(get(img, name), Reply { extent, ..Reply::default() });
}

fn lists(img: &[u8], index: u64, offset: u64, length: u64, size: u64) {
    let extent = Extent { offset, length };
    assert_eq!(list(img, index), Reply { extent, size, ..Reply::default() });
}

/// "At 16" after a put of "dose" to a fresh image was cut at k and mounted.
fn cut_and_mounted(k: u64, t: u64, steps: u64, after_cut: &[u8], after_mount: &[u8]) {
    let mut img = fresh();
    put_dose(&mut img, &[1, 2, 3], k, 4, k);
    assert_eq!(img, image(&[&FIRST, after_cut]), "cut at {k}");
    assert_eq!(get(&img, b"dose"), Reply::refusal(16));
    mounts(&mut img, 0, t, 0, steps);
    assert_eq!(img, image(&[&FIRST, after_mount]), "cut at {k}, mounted");
    assert_eq!(get(&img, b"dose"), Reply::refusal(2));
}

#[test]
fn all_ff_is_6() {
    let mut img = image(&[]);
    assert_eq!(mount(&mut img, ALL), Reply::refusal(6));
    assert_eq!(img, image(&[]));
}

#[test]
fn bad_lengths_are_22() {
    for n in [0, 1, 4096, 8193, 16_777_216 + 4096] {
        let mut img = vec![0xFF; n];
        let replies = [
            mount(&mut img, ALL),
            format(&mut img, ALL),
            put(&mut img, b"a", b"", ALL),
            get(&img, b"a"),
            list(&img, 0),
            remove(&mut img, b"a", ALL),
            sweep(&mut img, ALL),
        ];
        assert_eq!(replies, [Reply::refusal(22); 7], "N = {n}");
        assert!(all_ff(&img));
    }
}

#[test]
fn after_format() {
    let mut img = fresh();
    assert_eq!(img, image(&[&FIRST]));
    mounts(&mut img, 0, 16, 0, 0);
}

#[test]
fn first_put() {
    let mut img = dose();
    assert_eq!(img, image(&[&FIRST, &DOSE]));
    mounts(&mut img, 0, 40, 1, 0);
}

#[test]
fn cuts_of_the_first_put() {
    let torn_done = [0xA5, 0x5A, 0x00, 0xFF, 0, 0, 0, 0, 0];
    cut_and_mounted(1, 32, 9, &[0xA5], &torn_done);
    let header = [0xA5, 0x5A, 0xFE, 0xFF, 3, 0, 0, 0];
    let voided = [0xA5, 0x5A, 0x00, 0xFF, 3, 0, 0, 0];
    cut_and_mounted(7, 40, 4, &header, &[&voided[..], &[0]].concat());
    // after the name's 80, and after its 00
    cut_and_mounted(12, 40, 4, &[&header[..], b"dose\x80"].concat(), &[&voided[..], b"dose\0"].concat());
    cut_and_mounted(13, 40, 2, &[&header[..], b"dose\0"].concat(), &[&voided[..], b"dose\0"].concat());
    cut_and_mounted(16, 40, 2, &edited(&DOSE, &[(2, 0xFE)]), &edited(&DOSE, &[(2, 0x00)]));
    let mut img = fresh();
    put_dose(&mut img, &[1, 2, 3], 17, 0, 17);
}

/// The first put cut inside the byte of its next step, which then holds `held`: what the
/// mount after it takes, and its tail and files.
fn cut_inside_a_byte(k: u64, held: u8, steps: u64, t: u64, files: u64) -> Vec<u8> {
    let mut img = fresh();
    let plan = planned(&img, Ask::Put(b"dose", &[1, 2, 3])).expect("it has room");
    put_dose(&mut img, &[1, 2, 3], k, 4, k);
    let before = img.clone();
    cut_inside(&mut img, &plan.steps[k as usize..], held);
    assert_ne!(img, before, "{held:02x} at {k}");
    mounts(&mut img, 0, t, files, steps);
    img
}

#[test]
fn cuts_inside_bytes_of_the_first_put() {
    let torn_done = [0xA5, 0x5A, 0x00, 0xFF, 0, 0, 0, 0, 0];
    // on the way to A5, and to 5A
    for (k, held) in [(0, 0xFD), (0, 0xA7), (1, 0xDB), (1, 0x5A)] {
        assert_eq!(cut_inside_a_byte(k, held, 9, 32, 0), image(&[&FIRST, &torn_done]));
    }
    // a length byte: the torn record is voided all the same
    cut_inside_a_byte(2, 0x7F, 9, 32, 0);
    // FE: the record is reserved, its name has no byte
    cut_inside_a_byte(6, 0xFE, 4, 40, 0);
    // inside the name's first byte, 64: E4 counts as the 00, 7C is a byte of the name
    let voided = [0xA5, 0x5A, 0x00, 0xFF, 3, 0, 0, 0];
    assert_eq!(cut_inside_a_byte(7, 0xE4, 4, 40, 0), image(&[&FIRST, &voided, &[0]]));
    assert_eq!(cut_inside_a_byte(7, 0x7C, 4, 40, 0), image(&[&FIRST, &voided, &[0x7C, 0]]));
    // the commit: "a put .. is done at FC"
    assert_eq!(cut_inside_a_byte(16, 0xFC, 0, 40, 1), image(&[&FIRST, &DOSE]));
}

/// "erase stays atomic", and a byte that is not between has no effect.
#[test]
fn no_effect() {
    let img = dose();
    for (left, held) in [
        (vec![Step::Erase(0), Step::Program(16, 0x00)], 0x00),
        (vec![Step::Program(16, 0x80)], 0x00),
        (vec![Step::Program(16, 0x80)], 0xFF),
        (vec![], 0x00),
    ] {
        let mut cut = img.clone();
        cut_inside(&mut cut, &left, held);
        assert_eq!(cut, img, "{left:?}");
    }
}

/// "any record status but FF, FE, FC, F8 is dead"; A4 and A1 count as A5, 80 as CLEAN; A4
/// with status FF is not torn.
#[test]
fn bytes_of_a_cut() {
    for status in (0..=0xFD).filter(|s| !matches!(s, 0xFC | 0xF8)) {
        mounts(&mut image(&[&FIRST, &edited(&DOSE, &[(2, status)])]), 0, 40, 0, 0);
    }
    for low in [0xA4, 0xA1] {
        mounts(&mut image(&[&FIRST, &edited(&DOSE, &[(0, low)])]), 0, 40, 1, 0);
        assert_eq!(mount(&mut image(&[&FIRST, &[low, 0x5A]]), ALL), Reply::refusal(5));
    }
    // from A0 two steps, from 80 "only the last"; the former head's second byte
    for (low, steps) in [(0xA0, 3), (0x80, 2)] {
        mounts(&mut image(&[&FIRST, &edited(&DOSE, &[(0, low)])]), 16, 40, 1, steps);
    }
}

#[test]
fn replacing() {
    let second = edited(&DOSE, &[(16, 4), (17, 5), (18, 6)]);
    let old = |status| edited(&DOSE, &[(2, status)]);
    let mut img = dose();
    put_dose(&mut img, &[4, 5, 6], ALL, 0, 19);
    assert_eq!(img, image(&[&FIRST, &old(0x00), &second]));
    // the last cut that leaves the old one
    let mut img = dose();
    put_dose(&mut img, &[4, 5, 6], 17, 4, 17);
    assert_eq!(img, image(&[&FIRST, &old(0xF8), &edited(&second, &[(2, 0xFE)])]));
    mounts(&mut img, 0, 64, 1, 2);
    assert_eq!(img, image(&[&FIRST, &old(0xF8), &edited(&second, &[(2, 0x00)])]));
    gives(&img, b"dose", 32, 3);
    // the first with the new one: "mount takes 1"
    let mut img = dose();
    put_dose(&mut img, &[4, 5, 6], 18, 4, 18);
    assert_eq!(img, image(&[&FIRST, &old(0xF8), &second]));
    mounts(&mut img, 0, 64, 1, 1);
    assert_eq!(img, image(&[&FIRST, &old(0x00), &second]));
    gives(&img, b"dose", 56, 3);
}

#[test]
fn room_of_the_first_put() {
    // K6: "01's 2,704 and 2,705 become 2,024 and 2,025". The new record begins in the head's
    // sector and is counted again: 16 + 4 * (8 + 8 + 2024) = 8176; with 2025 bytes it would be 8208
    let mut img = fresh();
    let steps = 4 + 2024 + 10;
    let space = below(2056, 2040);
    assert_eq!(put(&mut img, b"dose", &[7; 2024], ALL), Reply { space, steps, ..Reply::default() });
    mounts_with(&mut img, Report { head: 0, tail: 2056, files: 1 }, 2040, 0);
    let mut img = fresh();
    assert_eq!(put(&mut img, b"dose", &[7; 2025], ALL), Reply::refusal(28));
    assert_eq!(img, image(&[&FIRST]));
}

#[test]
fn sweep_after_the_first_put() {
    for (data, cleaned, steps) in [([1, 2, 3], [1, 2, 3], 27), ([0x00, 0x5A, 3], [0x00, 0x00, 3], 28)] {
        let mut img = fresh();
        put_dose(&mut img, &data, ALL, 0, 17);
        let space = Space { live: 24, dead: 0, free: 8128, lost: 40 };
        assert_eq!(sweep(&mut img, ALL), Reply { moves: 2, space, steps, ..Reply::default() });
        let first = edited(&FIRST, &[(1, 0x00)]);
        let old = edited(&DOSE, &[(0, 0x00), (1, 0x00), (2, 0x00), (16, cleaned[0]), (17, cleaned[1])]);
        let copy = edited(&DOSE, &[(0, 0x00), (16, data[0]), (17, data[1])]);
        assert_eq!(img, image(&[&first, &old, &copy]));
        mounts(&mut img, 40, 64, 1, 0);
    }
}

#[test]
fn names_and_empty_content() {
    let mut img = fresh();
    assert_eq!(
        put(&mut img, &[b'x'; 63], b"1", ALL),
        Reply { space: below(96, 80), steps: 63 + 1 + 10, ..Reply::default() }
    );
    let before = img.clone();
    // the reasons are K5's; names.rs has more of them
    for (bad, reason) in [(&[b'x'; 64][..], 2), (b"a/", 4), (b"", 1), (b"\x7F", 3), (b"\x20", 3)] {
        let refused = Reply { name: NameFault { reason, place: 0 }, ..Reply::refusal(22) };
        assert_eq!(put(&mut img, bad, b"1", ALL), refused);
        assert_eq!(get(&img, bad), refused);
        assert_eq!(remove(&mut img, bad, ALL), refused);
    }
    assert_eq!(img, before);
    assert_eq!(put(&mut img, b"e", b"", ALL), Reply { space: below(112, 96), steps: 1 + 10, ..Reply::default() });
    // the first at 16, with 8 + 64 + 8 bytes; the second at 96
    gives(&img, &[b'x'; 63], 88, 1);
    gives(&img, b"e", 112, 0);
    lists(&img, 0, 24, 63, 1);
    lists(&img, 1, 104, 1, 0);
    assert_eq!(list(&img, 2), Reply::refusal(2));
    // "Remove: status 00, one step"
    assert_eq!(remove(&mut img, b"e", 0), Reply::refusal(4));
    assert_eq!(remove(&mut img, b"e", 1), Reply { steps: 1, ..Reply::default() });
    assert_eq!(img[96..104], [0xA5, 0x5A, 0x00, 0xFF, 0, 0, 0, 0]);
    assert_eq!(remove(&mut img, b"e", 1), Reply::refusal(2));
}
