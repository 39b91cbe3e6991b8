//! Names that collide in the library's table of bits (model::bits), made so. They are different names, and no answer may
//! depend on it.
use crate::maker::Maker;
use crate::rng::Rng;
use model::bits::{long_hash, number, Signature, HIGH, LOW, SPREAD};
use model::good_name;
use std::collections::BTreeSet;
use std::fmt;
use std::sync::OnceLock;

const LONGEST: usize = 60;

/// How names collide.
#[derive(Clone, Copy, PartialEq, Eq, Debug)]
pub enum Kind {
    /// one hash
    Hash,
    /// of every fourth name the three before it set the bits, each in one of its words
    Covered,
    /// the same three words, whose bits are soon all set
    Words,
    /// four names of three bytes, the bits of the last set by the others
    Short,
}

impl Kind {
    pub const ALL: [Kind; 4] = [Kind::Hash, Kind::Covered, Kind::Words, Kind::Short];

    /// So many names, four if they are short; all different, of 3 or of 6 to 60 bytes.
    pub fn names(self, r: &mut Rng, count: usize) -> Vec<Vec<u8>> {
        if self == Kind::Short {
            return r.of(short_names()).to_vec();
        }
        let length = r.of(&[6, 7, 8, 9, 16, 31, 60]);
        let mixed = r.chance(50);
        self.of_lengths(r, count, |r| if mixed { 6 + r.below(55) as usize } else { length })
    }

    /// So many names with such lengths, which are at least 6; longer ones where the short ones of a hash come again, for
    /// of six bytes a hash has some 160 names.
    pub fn of_lengths(self, r: &mut Rng, count: usize, length: impl Fn(&mut Rng) -> usize) -> Vec<Vec<u8>> {
        let mut names: Vec<Vec<u8>> = Vec::new();
        let mut known = BTreeSet::new();
        for hash in self.hashes(r, count) {
            let mut bytes = length(r);
            let mut name = with_hash(r, bytes, hash);
            while !known.insert(name.clone()) {
                bytes = LONGEST.min(bytes + 1);
                name = with_hash(r, bytes, hash);
            }
            names.push(name);
        }
        names
    }

    /// The hashes of so many names.
    fn hashes(self, r: &mut Rng, count: usize) -> Vec<u32> {
        let first = r.bits() as u32;
        match self {
            Kind::Covered => covered(r, count),
            Kind::Words => {
                let (from, to) = same_words(first);
                (0..count).map(|_| from + r.below(u64::from(to - from + 1)) as u32).collect()
            }
            _ => vec![first; count],
        }
    }
}

impl Maker {
    /// With this chance as many names that collide, four at least.
    pub fn sometimes_colliding(self, r: &mut Rng, percent: u64) -> Maker {
        if !r.chance(percent) {
            return self;
        }
        let (kind, count) = (r.of(&Kind::ALL), self.names.len().max(4));
        Maker { names: kind.names(r, count), ..self }
    }
}

/// The first and the last hash of these three words: they are the upper 27 bits of a hash times SPREAD, and the hashes stand side by side.
fn same_words(hash: u32) -> (u32, u32) {
    const BELOW: u64 = 1 << 37;
    let words = u64::from(hash) * SPREAD / BELOW;
    let last = u128::from(words + 1) * u128::from(BELOW) - 1;
    let last = (last / u128::from(SPREAD)).min(u128::from(u32::MAX));
    ((words * BELOW).div_ceil(SPREAD) as u32, last as u32)
}

/// Groups of four hashes, the last of which the others cover, taken by chance.
fn covered(r: &mut Rng, count: usize) -> Vec<u32> {
    static GROUPS: OnceLock<Vec<[u32; 4]>> = OnceLock::new();
    let groups = GROUPS.get_or_init(|| {
        let mut r = Rng::new(1);
        std::iter::repeat_with(|| covered_group(r.bits() as u32)).flatten().take(12).collect()
    });
    let mut hashes = Vec::new();
    while hashes.len() < count {
        hashes.extend(r.of(groups));
    }
    hashes.truncate(count);
    hashes
}

/// Three hashes, each of which sets the bits of the last in one of its words alone; none if a word has none.
fn covered_group(last: u32) -> Option<[u32; 4]> {
    let s = Signature::of_hash(last);
    let all = with_bits(s.bits);
    let only = |word: usize| {
        let sets = |h: &&u32| s.words.iter().all(|&w| (Signature::of_hash(**h).sets(w) != 0) == (w == word));
        all.iter().find(sets).copied()
    };
    let [a, b, c] = s.words.map(only);
    Some([a?, b?, c?, last])
}

/// The hashes that set these three bits, in any words. A hash is known by the lower 32 bits of its product with SPREAD: two of the numbers
/// of bits stand there, and the third's lowest bit.
fn with_bits(bits: u64) -> Vec<u32> {
    let numbers: Vec<u32> = (0..64).filter(|k| bits >> k & 1 == 1).collect();
    let orders =
        numbers.iter().flat_map(|&a| numbers.iter().flat_map(move |&b| [0, 1].map(|c| c << 31 | a << 25 | b << 19)));
    let hashes = orders.flat_map(|x| x..=x | 0x7_FFFF).map(|x| x.wrapping_mul(inverse(SPREAD as u32)));
    hashes.filter(|&h| Signature::of_hash(h).bits == bits).collect()
}

/// What an odd factor is undone by, modulo 2^32: each turn doubles the bits that are right, of which three are at first.
fn inverse(factor: u32) -> u32 {
    (0..4).fold(factor, |x, _| x.wrapping_mul(2u32.wrapping_sub(factor.wrapping_mul(x))))
}

/// A number and the sum of its halves are equal modulo this.
const FOLD: u64 = 0xFFFF_FFFF;

/// What LOW is undone by, modulo FOLD: FOLD is 3 * 5 * 17 * 257 * 65537, and no factor of LOW, so that LOW^65536 is 1.
fn undo_low() -> u64 {
    static UNDO: OnceLock<u64> = OnceLock::new();
    *UNDO.get_or_init(|| (1..65536).fold(1, |all, _| all * LOW % FOLD))
}

/// The lower four bytes of a last word with these upper bytes, behind bytes of the hash h; folding leaves it open whether the hash was cut
/// off at 2^32, and not every four bytes may stand in a name.
fn lower_bytes(h: u64, upper: &[u8], hash: u64) -> Option<[u8; 4]> {
    let rest = (hash + FOLD - number(upper) * HIGH % FOLD) % FOLD;
    let low = (rest * undo_low() % FOLD + FOLD - h % FOLD) % FOLD;
    let bytes = (low as u32).to_le_bytes();
    bytes.iter().all(|b| (0x21..=0x7E).contains(b)).then_some(bytes)
}

/// A good name of this length, 6 at least, and hash: any bytes but four of the last word, which one in some 50 gives.
fn with_hash(r: &mut Rng, length: usize, hash: u32) -> Vec<u8> {
    let front: Vec<u8> = (8..length).map(|_| 0x21 + r.below(94) as u8).collect();
    let h = if length < 8 { 0 } else { long_hash(&front) };
    loop {
        let upper: Vec<u8> = (4..length.min(8)).map(|_| 0x21 + r.below(94) as u8).collect();
        let cut_off = u64::from(r.chance(50));
        let Some(lower) = lower_bytes(h, &upper, u64::from(hash) + cut_off) else { continue };
        let name = [&front[..], &lower, &upper].concat();
        if good_name(&name) && model::bits::hash(&name) == hash {
            return name;
        }
    }
}

/// Four names of three bytes, some times, of which the first three set the bits of the last, each in one of its words.
fn short_names() -> &'static [[Vec<u8>; 4]] {
    static NAMES: OnceLock<Vec<[Vec<u8>; 4]>> = OnceLock::new();
    NAMES.get_or_init(|| {
        let single = |(_, s): &&([u8; 3], Signature)| s.bits.count_ones() == 1;
        triples().iter().filter(single).filter_map(|last| short_names_of(*last)).take(64).collect()
    })
}

/// The good names of three bytes.
fn triples() -> &'static [([u8; 3], Signature)] {
    static TRIPLES: OnceLock<Vec<([u8; 3], Signature)>> = OnceLock::new();
    TRIPLES.get_or_init(|| {
        let good = 0x21..=0x7E;
        let pairs = good.clone().flat_map(|a| good.clone().map(move |b| (a, b)));
        let all = pairs.flat_map(|(a, b)| good.clone().map(move |c| [a, b, c])).filter(|name| good_name(name));
        all.map(|name| (name, Signature::of(&name))).collect()
    })
}

/// Those of this last one, whose words are three.
fn short_names_of((last, s): ([u8; 3], Signature)) -> Option<[Vec<u8>; 4]> {
    let only = |word: usize| {
        let sets = |t: &Signature| s.words.iter().all(|&w| (t.sets(w) & s.bits != 0) == (w == word));
        triples().iter().find(|(_, t)| sets(t)).map(|(name, _)| name.to_vec())
    };
    let [a, b, c] = s.words.map(only);
    Some([a?, b?, c?, last.to_vec()])
}

/// Images by how many of their names collide.
#[derive(Default)]
pub struct Collisions([u64; 5]);

impl Collisions {
    const UP_TO: [(usize, &'static str); 5] =
        [(1, "1"), (2, "2"), (9, "3 to 9"), (99, "10 to 99"), (usize::MAX, "100 or more")];

    /// An image with so many.
    pub fn note(&mut self, names: usize) {
        if names > 0 {
            let i = Collisions::UP_TO.iter().position(|&(most, _)| names <= most).expect("any number");
            self.0[i] += 1;
        }
    }

    pub fn images(&self) -> u64 {
        self.0.iter().sum()
    }
}

impl fmt::Display for Collisions {
    fn fmt(&self, f: &mut fmt::Formatter) -> fmt::Result {
        for (images, (_, words)) in self.0.iter().zip(Collisions::UP_TO) {
            writeln!(f, "{images:>9} images with {words} colliding names")?;
        }
        Ok(())
    }
}
