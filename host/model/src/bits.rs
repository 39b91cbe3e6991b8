//! The table of bits by which the library tells names apart (docs/requests/K2.md, "How slow it can be"). No rule of
//! document 01: it is here for a fault, and for testers that make names which collide in it.
use std::collections::BTreeSet;

pub const WORDS: usize = 512;

/// The factors of a word's lower and upper half, and of the hash; primes that xxHash has.
pub const LOW: u64 = 0x1656_67B1;
pub const HIGH: u64 = 0x27D4_EB2F;
pub const SPREAD: u64 = 0xC2B2_AE3D;

/// Up to eight bytes as one number, the first the lowest.
pub fn number(bytes: &[u8]) -> u64 {
    bytes.iter().rev().fold(0, |all, &byte| all << 8 | u64::from(byte))
}

/// With one word more: the sum of both products, of which the halves are added.
fn mixed(h: u64, word: u64) -> u64 {
    let y = ((word & 0xFFFF_FFFF) + h) * LOW + (word >> 32) * HIGH;
    (y >> 32) + (y & 0xFFFF_FFFF)
}

/// Before it is cut off at 2^32: the bytes that make no whole word come first, then the words.
pub fn long_hash(name: &[u8]) -> u64 {
    let (first, words) = name.split_at(name.len() % 8);
    words.chunks(8).fold(mixed(0, number(first)), |h, word| mixed(h, number(word)))
}

pub fn hash(name: &[u8]) -> u32 {
    long_hash(name) as u32
}

/// What a name sets: up to three bits, in each of three words.
#[derive(Clone, Copy, PartialEq, Eq, Debug)]
pub struct Signature {
    pub bits: u64,
    pub words: [usize; 3],
}

impl Signature {
    pub fn of_hash(hash: u32) -> Signature {
        let z = u64::from(hash) * SPREAD;
        Signature {
            bits: [31, 25, 19].into_iter().fold(0, |all, by| all | 1 << (z >> by & 63)),
            words: [55, 46, 37].map(|by| (z >> by & 511) as usize),
        }
    }

    pub fn of(name: &[u8]) -> Signature {
        Signature::of_hash(hash(name))
    }

    /// The bits that it sets in a word.
    pub fn sets(self, word: usize) -> u64 {
        if self.words.contains(&word) {
            self.bits
        } else {
            0
        }
    }

    /// These others set all its bits.
    pub fn is_set_by(self, others: &[Signature]) -> bool {
        let set = |word: usize| others.iter().fold(0, |all, other| all | other.sets(word));
        self.words.iter().all(|&word| self.bits & !set(word) == 0)
    }
}

/// The names, in their order, that come to bits all set by others: how many.
pub fn colliding<'a>(names: impl Iterator<Item = &'a [u8]>) -> usize {
    let mut table = [0u64; WORDS];
    let mut passed = BTreeSet::new();
    let mut count = 0;
    for name in names {
        let s = Signature::of(name);
        let set = s.words.iter().all(|&word| s.bits & !table[word] == 0);
        s.words.iter().for_each(|&word| table[word] |= s.bits);
        count += (passed.insert(name) && set) as usize;
    }
    count
}

#[cfg(test)]
mod tests {
    use super::*;

    /// Worked out with numbers of any length: 61 hex times 165667B1 is 8:76BD4A11, 6261 times it 895:8A6F0C11, and 64636261 times it and
    /// 68676665 times 27D4EB2F are 190102A5:0C808F9C, of which the halves are added. In "abcdefgh" no byte comes before the word.
    /// 76BD4A19 times C2B2AE3D is 5A4E5295:6AD9A5F5, 8A6F14A6 times it 6948CD1A:A3ECBF8E.
    #[test]
    fn the_formula() {
        assert_eq!((hash(b""), hash(b"a"), hash(b"ab")), (0, 0x76BD_4A19, 0x8A6F_14A6));
        assert_eq!((hash(b"abcdefgh"), hash(b"night basal")), (0x2581_9241, 0xBDAC_9562));
        let bits = |numbers: &[u32]| numbers.iter().fold(0, |all, k| all | 1u64 << k);
        let a = Signature { bits: bits(&[42, 53, 27]), words: [180, 313, 148] };
        let ab = Signature { bits: bits(&[53, 17, 61]), words: [210, 291, 104] };
        assert_eq!((Signature::of(b"a"), Signature::of(b"ab")), (a, ab));
    }
}
