//! Chains with one odd field, and images of noise.
use crate::aimed::tight;
use crate::images::built;
use crate::rng::Rng;
use crate::ALL;
use model::*;

/// A chain that is read, with one field of one record changed to an odd value.
pub fn chain(r: &mut Rng, n: usize) -> Vec<u8> {
    let mut img = if r.chance(40) { tight(r, n) } else { built(r, n, false) };
    if r.chance(30) {
        mount(&mut img, ALL);
    }
    let Ok(c) = read_image(&img) else { return img };
    let things: Vec<u64> = c.records.iter().map(|x| x.at).chain(c.marker).chain(c.torn_wrap).collect();
    let (thing, record) = (r.of(&things), r.of(&c.records));
    match r.below(6) {
        0 => odd_magic(r, &mut img, thing),
        1 => odd_status(r, &mut img, thing),
        2 => odd_length(r, &mut img, &record, &c),
        3 => odd_name(r, &mut img, &record),
        4 => odd_twin(r, &mut img, &c),
        _ => img[thing as usize + 3] = r.bits() as u8,
    }
    img
}

fn odd_magic(r: &mut Rng, img: &mut [u8], at: u64) {
    let low = r.of(&[0xA5, 0xA0, 0x00, 0xFA, 0xFF, 0xA4, 0xA1, 0x5A, 0xF8, 0x80, 0x20, 0xFB, 0xB5]);
    let high = r.of(&[0x5A, 0x5A, 0x5A, 0x5A, 0xFF, 0x00, 0x5B, 0x7A, 0x12]);
    img[at as usize] = low;
    img[at as usize + 1] = high;
}

fn odd_status(r: &mut Rng, img: &mut [u8], at: u64) {
    let any = r.bits() as u8;
    img[at as usize + 2] = r.of(&[0xFF, 0xFE, 0xFC, 0xF8, 0xF0, 0xE0, 0x00, any, any, any | 0xF0]);
}

/// A length that ends at a limit, just before or behind it, or is far too long.
fn odd_length(r: &mut Rng, img: &mut [u8], x: &Record, c: &Chain) {
    let limit = r.of(&[img.len() as u64, floor(c.head), c.tail, floor(x.at) + SECTOR]);
    let exact = limit.saturating_sub(x.data_at) as u32;
    let near = exact.wrapping_add(r.below(17) as u32).wrapping_sub(8);
    let length = r.of(&[exact, near, 0, 1, x.data_len as u32 ^ 8, u32::MAX, u32::MAX - 7, 1 << 31, 1 << 24]);
    let at = x.at as usize + 4;
    img[at..at + 4].copy_from_slice(&length.to_le_bytes());
}

/// A name without an end, of 63 or 64 bytes, with a bad byte, or of no bytes.
fn odd_name(r: &mut Rng, img: &mut [u8], x: &Record) {
    let from = x.at as usize + 8;
    let window = 64.min(img.len() - from);
    match r.below(5) {
        0 => img[from..from + window].fill(b'w'),
        1 => {
            img[from..from + window].fill(b'v');
            img[from + window - 1] = 0;
        }
        2 => img[from] = 0,
        3 => {
            img[from..from + window].fill(b'u');
            img[from + r.below(window as u64) as usize] = 0xFF;
        }
        _ => {
            let any = r.below(x.name_len.max(1));
            let i = from + r.of(&[any, any, 0, x.name_len.saturating_sub(1)]) as usize;
            img[i] = r.of(&[0x20, 0x20, 0x7F, 0x80, 0xE1, b'/', 0x01, 0xFF, 0x1F, 0x21, 0x7E]);
        }
    }
}

/// Two records get one name of one letter, and statuses of files.
fn odd_twin(r: &mut Rng, img: &mut [u8], c: &Chain) {
    for _ in 0..2 {
        let at = r.of(&c.records).at as usize;
        img[at + 8..at + 10].copy_from_slice(b"t\0");
        img[at + 2] = r.of(&[COMMITTED, COMMITTED, MIGRATING, MIGRATING, DELETED]);
    }
}

/// Bytes at random, bytes of the layout at random, or blocks of a header's bytes.
pub fn noise(r: &mut Rng, n: usize) -> Vec<u8> {
    let palette = [0x00, 0xFF, 0x5A, 0xA5, 0xA0, 0x80, 0xA4, 0xFA, 0xFC, 0xFE];
    match r.below(4) {
        0 => (0..n).map(|_| r.bits() as u8).collect(),
        1 => (0..n).map(|_| r.of(&palette)).collect(),
        2 => blocks(r, n, 40),
        _ => blocks(r, n, 2),
    }
}

/// Headers at some boundaries, among FF.
fn blocks(r: &mut Rng, n: usize, percent: u64) -> Vec<u8> {
    let mut img = vec![0xFF; n];
    for block in img.chunks_exact_mut(8) {
        if r.chance(percent) {
            let length = r.of(&[0u8, 3, 8, 0x40, 0xFF]);
            let low = r.of(&[0xA5, 0xA5, 0x00, 0xA0, 0xFA, 0x80, 0xA4, 0xA1]);
            block[..3].copy_from_slice(&[low, 0x5A, r.of(&[0x00, 0xFC, 0xF8, 0xFE, 0xFF, 0x70])]);
            block[4..8].copy_from_slice(&[length, 0, 0, 0]);
        }
    }
    img
}
