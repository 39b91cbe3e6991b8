//! Images with one fault or with many, for the check of an image (K13).
use crate::aimed::*;
use crate::images::{built, damage, of_history};
use crate::maker::Maker;
use crate::rng::Rng;
use crate::{odd, ALL};
use model::*;

/// Every verdict, the rules and repairs told apart.
pub const VERDICTS: [&str; 13] = [
    "22",
    "settled",
    "recovery 1",
    "recovery 2",
    "recovery 3",
    "recovery 4",
    "broken head",
    "broken unfinished",
    "broken header",
    "broken name",
    "broken end",
    "broken mark",
    "broken free",
];

/// Which of them it is.
pub fn kind_of(v: Result<Verdict, u32>) -> &'static str {
    VERDICTS[match v {
        Err(_) => 0,
        Ok(Verdict::Settled) => 1,
        Ok(Verdict::Recovery(number)) => 1 + number as usize,
        Ok(Verdict::Broken(rule, _)) => 6 + rule as usize,
    }]
}

/// An image of any kind with up to four faults; plain: with contents of one byte.
pub fn faulty(r: &mut Rng, n: usize, plain: bool) -> Vec<u8> {
    let mut img = match r.below(6) {
        0 => built(r, n, plain),
        1 => tight(r, n),
        2 => superseded_head(r, n),
        3 if !plain => odd::chain(r, n),
        _ => of_history(r, n, &Maker::short(30), 12),
    };
    for _ in 0..r.below(4) {
        fault(r, &mut img);
    }
    img
}

fn fault(r: &mut Rng, img: &mut [u8]) {
    match r.below(9) {
        0 => damage(r, img),
        1 => dirty_free_run(r, img),
        2 => superseded(r, img),
        3 => drop(reserved_byte(r, img)),
        4 => drop(behind_torn(r, img)),
        5 => renamed(r, img),
        6 => cut_off(r, img),
        7 => {
            mount(img, ALL);
        }
        _ => unfinished_last(r, img),
    }
}

/// A record gets the name and the status of another.
fn renamed(r: &mut Rng, img: &mut [u8]) {
    let Ok(c) = read_image(img) else { return };
    let files: Vec<&Record> = c.records.iter().filter(|x| x.name_len > 0).collect();
    let (x, y) = match files.len() {
        0 => return,
        _ => (r.of(&files), r.of(&files)),
    };
    if x.name_len == y.name_len {
        img.copy_within((x.at + 8) as usize..x.data_at as usize, y.at as usize + 8);
        img[y.at as usize + 2] = r.of(&[x.status, COMMITTED, MIGRATING]);
    }
}

/// A record that does not end where it may, at the tail or earlier.
fn cut_off(r: &mut Rng, img: &mut [u8]) {
    let Ok(c) = read_image(img) else { return };
    let at = if r.chance(50) { r.of(&c.records).at } else { c.tail } as usize;
    if at + 24 > img.len() {
        return;
    }
    let status = r.of(&[COMMITTED, MIGRATING, DELETED, RESERVED]);
    img[at..at + 3].copy_from_slice(&[r.of(&[0xA5, 0xA5, 0xA0, 0x00]), 0x5A, status]);
    img[at + 4..at + 8].copy_from_slice(&r.of(&[4096u32, 9000, 16_000_000]).to_le_bytes());
    if r.chance(70) {
        img[at + 8..at + 10].copy_from_slice(r.of(&[b"a\0", b"b\0", b"/\0"]));
    }
}

/// A head at 0, and files "a", "b" and "c" of three bytes at 16, 40 and 64; the tail is 88.
pub fn three() -> Vec<u8> {
    let mut img = vec![0xFF; 8192];
    let mut at = write_record(&mut img, 0, [0x00, 0x5A, 0x00], b"", b"");
    for name in [b"a", b"b", b"c"] {
        at = write_record(&mut img, at, [0xA5, 0x5A, COMMITTED], name, b"xyz");
    }
    assert_eq!(at, 88);
    img
}
