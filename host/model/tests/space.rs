//! Request K3's four numbers, worked out by hand.
use model::*;

const N: usize = 8192;
const ALL: u64 = u64::MAX;

fn of(live: u64, dead: u64, free: u64, lost: u64) -> Space {
    Space { live, dead, free, lost }
}

/// What the call gives back on this image, with enough allowance; then the image is as the
/// call leaves it.
fn done(img: &mut [u8], ask: Ask) -> Space {
    let told = space_told(img, ask, ALL);
    let reply = match ask {
        Ask::Mount => mount(img, ALL),
        Ask::Put(name, data) => put(img, name, data, ALL),
        Ask::Sweep => sweep(img, ALL),
        Ask::Format | Ask::Remove(_) => unreachable!(),
    };
    assert_eq!(reply.answer, 0);
    told
}

fn fresh() -> Vec<u8> {
    let mut img = vec![0x33; N];
    format(&mut img, ALL);
    img
}

fn dose() -> Vec<u8> {
    let mut img = fresh();
    put(&mut img, b"dose", &[1, 2, 3], ALL);
    img
}

/// A dead record "a" of d bytes behind a START of 16 bytes at 4,160: the tail is
/// 4,160 + 16 + (8 + 8 + up8(d)).
fn filled(d: u32) -> Vec<u8> {
    let mut img = vec![0xFF; N];
    img[4160..4169].copy_from_slice(&[0x00, 0x5A, 0x00, 0xFF, 0, 0, 0, 0, 0]);
    img[4176..4180].copy_from_slice(&[0xA5, 0x5A, 0x00, 0xFF]);
    img[4180..4184].copy_from_slice(&d.to_le_bytes());
    img[4184..4186].copy_from_slice(b"a\0");
    img[4192..4192 + d as usize].fill(0x33);
    img
}

#[test]
fn after_format() {
    // the record that format writes has 8 + up8(0 + 1) = 16 bytes and is dead
    assert_eq!(done(&mut fresh(), Ask::Mount), of(0, 16, 8176, 0));
}

#[test]
fn the_first_put_of_dose() {
    // 8 + up8(4 + 1) + up8(3) = 24 bytes at 16, T 40
    assert_eq!(done(&mut fresh(), Ask::Put(b"dose", &[1, 2, 3])), of(24, 16, 8152, 0));
    assert_eq!(done(&mut dose(), Ask::Mount), of(24, 16, 8152, 0));
}

#[test]
fn replacing_it() {
    // the old one's 24 bytes are dead, T 64
    assert_eq!(done(&mut dose(), Ask::Put(b"dose", &[4, 5, 6])), of(24, 40, 8128, 0));
}

#[test]
fn a_sweep_after_the_first_put() {
    // h 40, T 64: the copy is the only record, and 40 bytes below the head are lost
    let mut img = dose();
    assert_eq!(done(&mut img, Ask::Sweep), of(24, 0, 8128, 40));
    assert_eq!(done(&mut img, Ask::Mount), of(24, 0, 8128, 40));
}

#[test]
fn a_cut_put_and_its_repair() {
    // a torn record "counts 16 bytes"; a reserve of 24 is dead
    for (k, dead) in [(1, 32), (8, 40)] {
        let mut img = fresh();
        put(&mut img, b"dose", &[1, 2, 3], k);
        assert_eq!(done(&mut img, Ask::Mount), of(0, dead, N as u64 - dead, 0), "cut at {k}");
    }
}

#[test]
fn a_wrap_marker() {
    // T 4,176 + 16 + 3,960 = 8,152, where 40 bytes are left; a record of 8 + 8 + 32 = 48
    // bytes goes to 0, with a marker at 8,152 and 32 bytes behind it; 64 below the head
    let mut img = filled(3960);
    assert_eq!(done(&mut img, Ask::Mount), of(0, 16 + 3976, 40 + 4096, 64));
    assert_eq!(done(&mut img, Ask::Put(b"b", &[7; 32])), of(48, 16 + 3976 + 8, 4096 - 48, 64 + 32));
    assert_eq!(done(&mut img, Ask::Mount), of(48, 4000, 4048, 96));
    // three moves: past both dead records to the file at 0, and the file to 48
    assert_eq!(done(&mut img, Ask::Sweep), of(48, 0, N as u64 - 96, 48));
}

#[test]
fn a_torn_wrap_is_a_marker_then() {
    for torn in [&[0xFA][..], &[0xFA, 0x5A]] {
        let mut img = filled(3960);
        img[8152..8152 + torn.len()].copy_from_slice(torn);
        assert_eq!(done(&mut img, Ask::Mount), of(0, 4000, 4096, 96));
    }
}

#[test]
fn a_turn_at_n_has_no_marker() {
    // 4,176 + 16 + 4,000 = 8,192
    let mut img = filled(4000);
    assert_eq!(done(&mut img, Ask::Mount), of(0, 16 + 4016, 4096, 64));
    assert_eq!(done(&mut img, Ask::Put(b"b", &[7; 32])), of(48, 4032, 4048, 64));
}

#[test]
fn a_marker_with_nothing_behind_it() {
    // 4,176 + 16 + 3,992 = 8,184: eight bytes are left
    let mut img = filled(3992);
    assert_eq!(done(&mut img, Ask::Put(b"b", &[])), of(16, 16 + 4008 + 8, 4080, 64));
}

#[test]
fn zero_on_a_refusal_and_on_a_cut() {
    let zero = Space::default();
    assert_eq!(space_told(&[0xFF; N], Ask::Mount, ALL), zero);
    assert_eq!(space_told(&[0xFF; 4096], Ask::Mount, ALL), zero);
    assert_eq!(space_told(&fresh(), Ask::Put(b"a/", b""), ALL), zero);
    assert_eq!(space_told(&fresh(), Ask::Put(b"dose", &[7; 2025]), ALL), zero);
    // 17 steps and no fewer
    assert_eq!(space_told(&fresh(), Ask::Put(b"dose", &[1, 2, 3]), 16), zero);
    assert_ne!(space_told(&fresh(), Ask::Put(b"dose", &[1, 2, 3]), 17), zero);
    let mut cut = dose();
    put(&mut cut, b"dose", &[1, 2, 3], 3);
    assert_eq!(space_told(&cut, Ask::Sweep, ALL), zero);
    assert_eq!(space_told(&cut, Ask::Mount, 1), zero);
}
