//! Aimed cases that are the same in every run: lengths, names, contents.
use super::mounting::mounts;
use super::Comparison;
use crate::call::{formatted, Call, Store};
use crate::images::MARKS;
use crate::names::EDGES;
use crate::rng::Rng;
use crate::ALL;
use model::SECTOR;

/// One call of each kind, that a good image takes.
fn one_of_each(name: &[u8], allowance: u64) -> [Call; 7] {
    [
        Call::Mount(allowance),
        Call::Put(name.to_vec(), vec![1, 2, 3], allowance),
        Call::Get(name.to_vec()),
        Call::List(0),
        Call::Sweep(allowance),
        Call::Remove(name.to_vec(), allowance),
        Call::Format(allowance),
    ]
}

/// Good and bad N. On each length: all FF, and what a format and a put leave.
pub fn lengths<S: Store>(c: &mut Comparison<S>, large: bool) {
    let small = [0, 1, 7, 8, 4095, 4096, 8191, 8193, 12287, 8192, 12288, 1 << 20];
    let big = [16_773_120, 16_777_216, 16_777_215, 16_777_217, 16_781_312];
    for n in small.into_iter().chain(big.into_iter().filter(|_| large)) {
        lengths_of(c, n);
    }
}

fn lengths_of<S: Store>(c: &mut Comparison<S>, n: usize) {
    let mut images = vec![vec![0xFF; n], vec![0x00; n]];
    // the bytes of a formatted image, whether N is good or not
    let mut first = vec![0xFF; n];
    let header = [0x00, 0x5A, 0x00, 0xFF, 0, 0, 0, 0, 0];
    first.iter_mut().zip(header).for_each(|(byte, b)| *byte = b);
    let (_, put) = c.call(&first, &Call::Put(b"dose".to_vec(), vec![7; 3], ALL));
    images.extend([first, put]);
    for img in images {
        c.image("lengths");
        // a bad name behind a bad or good length
        for name in [&b"dose"[..], b"", b"a ", b"a/"] {
            for call in one_of_each(name, ALL) {
                c.call(&img, &call);
            }
        }
        for call in one_of_each(b"dose", 3) {
            c.call(&img, &call);
        }
        for index in [1, 2, ALL] {
            c.call(&img, &Call::List(index));
        }
    }
}

/// Contents that are longer than a length field can say (decision 25): never room, also
/// where the low 32 bits would fit. The bytes are never read, and so take no memory.
pub fn too_long<S: Store>(c: &mut Comparison<S>) {
    c.image("contents");
    for length in [1 << 24, (1 << 32) - 1, 1 << 32, (1 << 32) + 5] {
        let call = Call::Put(b"dose".to_vec(), vec![0; length], ALL);
        c.call(&formatted(8192), &call);
        c.call(&[0xFF; 8192], &call);
    }
}

/// Names of 0 to 70 bytes: good; with a byte of EDGES at the front, inside, at the end; and with a second one behind it.
pub fn names<S: Store>(c: &mut Comparison<S>) {
    let base = formatted(8192);
    for length in 0..=70 {
        let good = vec![b'n'; length];
        let (_, img) = c.call(&base, &Call::Put(good.clone(), vec![9; 5], ALL));
        c.image("names");
        named(c, &img, &good);
        let last = length.saturating_sub(1);
        for edge in EDGES {
            for at in [0, length / 2, last] {
                let mut name = good.clone();
                if let Some(byte) = name.get_mut(at) {
                    *byte = edge;
                    named(c, &img, &name);
                    name[last] = if at % 2 == 0 { b'/' } else { 0x7F };
                    named(c, &img, &name);
                }
            }
        }
        // the file's name and one byte more, or one less
        named(c, &img, &vec![b'n'; length + 1]);
        named(c, &img, &good[..length.saturating_sub(1)]);
    }
}

fn named<S: Store>(c: &mut Comparison<S>, img: &[u8], name: &[u8]) {
    c.call(img, &Call::Get(name.to_vec()));
    c.call(img, &Call::Put(name.to_vec(), vec![1; 9], ALL));
    c.call(img, &Call::Remove(name.to_vec(), ALL));
}

/// No bytes, FF alone, and marks at every boundary.
pub fn of_length(length: usize) -> Vec<Vec<u8>> {
    let marked = |low: u8| (0..length).map(|i| [low, 0x5A, 0xFF, 0xFF, 8, 0, 0, 0][i % 8]).collect();
    let plain = [vec![0xFF; length], vec![0x11; length]];
    plain.into_iter().chain(MARKS.map(marked)).collect()
}

/// Every cut of puts of each kind of content, first and again, and of a sweep of it.
pub fn contents<S: Store>(c: &mut Comparison<S>, r: &mut Rng) {
    for n in [2 * SECTOR, 3 * SECTOR] {
        for name in [&b"k"[..], &[b'K'; 63]] {
            for content in [0, 1, 2, 7, 8, 9, 10, 16, 17, 64, 1300].into_iter().flat_map(of_length) {
                put_twice(c, r, n as usize, name, content);
            }
        }
    }
}

fn put_twice<S: Store>(c: &mut Comparison<S>, r: &mut Rng, n: usize, name: &[u8], content: Vec<u8>) {
    let put = Call::Put(name.to_vec(), content, ALL);
    let img = formatted(n);
    c.image("contents");
    c.cuts(r, &img, &put);
    let (_, img) = c.call(&img, &put);
    c.image("contents");
    c.cuts(r, &img, &put);
    c.cuts(r, &img, &Call::Sweep(ALL));
    let (_, img) = c.call(&img, &put);
    c.image("contents");
    c.cuts(r, &img, &Call::Sweep(ALL));
    c.cuts(r, &img, &Call::Remove(name.to_vec(), ALL));
}

/// Every cut of short puts and of the sweeps after them, and after each the mount,
/// cut everywhere too.
pub fn every_cut_mounted<S: Store>(c: &mut Comparison<S>, r: &mut Rng) {
    for content in [0, 2, 10, 17].into_iter().flat_map(of_length) {
        let put = Call::Put(b"dose".to_vec(), content, ALL);
        let mut img = formatted(2 * SECTOR as usize);
        for call in [&put, &put, &Call::Sweep(ALL), &put, &Call::Sweep(ALL)] {
            for cut in c.cuts(r, &img, call) {
                c.image("every cut of a short call");
                mounts(c, r, &cut, ALL as usize, 0);
            }
            img = c.call(&img, call).1;
        }
    }
}
