//! Images of names that collide in the library's table, or in that of the C: how slow their calls can be.
use crate::cases::{Case, Kind};
use model::good_name;
use testing::aimed::write_record;
use testing::call::{formatted, Call};
use testing::colliding::Kind as Colliding;
use testing::rng::Rng;
use testing::ALL;

pub const FILES: [usize; 4] = [256, 1024, 2048, 4096];
pub const CALLS: [Kind; 2] = [Kind::Mount, Kind::Get];
/// The image, in which 4,096 files take a third.
const LENGTH: usize = 1 << 20;
/// Of a name: seven words.
const NAME: usize = 56;

#[derive(Clone, Copy, PartialEq, Eq, Debug)]
pub enum Names {
    /// any
    Random,
    /// one hash in the library's table
    OfLibrary,
    /// one key in the C's
    OfBaseline,
}

impl Names {
    pub const ALL: [Names; 3] = [Names::Random, Names::OfLibrary, Names::OfBaseline];

    pub fn title(self) -> &'static str {
        match self {
            Names::Random => "random",
            Names::OfLibrary => "collide in the library",
            Names::OfBaseline => "collide in the C",
        }
    }

    fn some(self, files: usize) -> Vec<Vec<u8>> {
        let r = &mut Rng::new(7);
        match self {
            Names::Random => (0..files).map(|_| random(r, NAME)).collect(),
            Names::OfLibrary => Colliding::Hash.of_lengths(r, files, |_| NAME),
            Names::OfBaseline => (0..files).map(|_| of_sum(r)).collect(),
        }
    }
}

fn random(r: &mut Rng, length: usize) -> Vec<u8> {
    let name = (1..length).map(|_| 0x21 + r.below(94) as u8);
    name.chain([b'a']).collect()
}

/// As `mixed` in host/baseline/c/names.h.
fn mixed(bits: u64) -> u64 {
    let bits = bits.wrapping_mul(0x9E37_79B9_7F4A_7C15);
    bits ^ bits >> 32
}

/// What `name_key` there has of a name of whole words, before the word of its end.
fn sum(name: &[u8]) -> u64 {
    name.chunks(8).fold(0, |sum, word| mixed(sum ^ u64::from_le_bytes(word.try_into().expect("eight bytes"))))
}

/// A name whose sum is `mixed` of 0: the last word is the sum of those before it, in one case of 3,000 a good one.
fn of_sum(r: &mut Rng) -> Vec<u8> {
    loop {
        let mut name = random(r, NAME - 8);
        let last = sum(&name).to_le_bytes();
        name.extend(last);
        if good_name(&name) {
            return name;
        }
    }
}

/// The call on an image of so many files of 8 bytes.
pub fn case(kind: Kind, names: Names, files: usize) -> Case {
    let names = names.some(files);
    let mut img = formatted(LENGTH);
    names.iter().fold(16, |at, name| write_record(&mut img, at, [0xA5, 0x5A, 0xFC], name, &[0x11; 8]));
    let call = match kind {
        Kind::Mount => Call::Mount(ALL),
        Kind::Get => Call::Get(names[files - 1].clone()),
        _ => unreachable!("{kind:?} is not measured on these images"),
    };
    Case { img, call }
}

#[cfg(test)]
mod tests {
    use super::*;
    use model::bits;
    use std::collections::BTreeSet;

    #[test]
    fn names_collide_where_they_should() {
        for names in Names::ALL {
            let some = names.some(256);
            assert!(some.iter().all(|name| name.len() == NAME && good_name(name)));
            assert_eq!(some.iter().collect::<BTreeSet<_>>().len(), 256);
            let hashes: BTreeSet<u32> = some.iter().map(|name| bits::hash(name)).collect();
            let sums: BTreeSet<u64> = some.iter().map(|name| sum(name)).collect();
            assert_eq!(hashes.len() == 1, names == Names::OfLibrary);
            assert_eq!(sums.len() == 1, names == Names::OfBaseline);
        }
    }
}
