//! K6: "A store of tiny files passed 01's room rule, then sweep gave 28 for good."
use crate::call::Call;
use crate::maker::{Contents, Lengths, Maker};
use crate::rng::Rng;
use crate::ALL;

impl Maker {
    /// Many tiny files, so that many records begin in the head's sector, and more puts
    /// than the sweeps make room for.
    pub fn tiny_files(r: &mut Rng) -> Maker {
        let sweep = r.of(&[2, 10, 30]);
        Maker {
            names: tiny_names(r.of(&[20, 60, 300])),
            bad: 0,
            lengths: Lengths::Uniform(r.of(&[16, 32, 48, 64, 128, 256])),
            contents: Contents::Plain,
            weights: [92 - sweep, 8, sweep, 0, 0, 0, 0],
            cut: r.of(&[0, 0, 5, 20]),
            due: 100,
        }
    }

    /// Sweeps that are cut again and again: what is left of their copies takes the room
    /// that puts keep free (K6), up to T = N and T = floor(h).
    pub fn cut_sweeps(r: &mut Rng) -> Maker {
        Maker { weights: [25, 5, 70, 0, 0, 0, 0], cut: r.of(&[30, 50, 70]), due: 100, ..Maker::full_sectors(r) }
    }
}

/// So many names of up to 7 bytes, whose records are of the least size.
fn tiny_names(count: u32) -> Vec<Vec<u8>> {
    (0..count).map(|i| format!("t{i}").into_bytes()).collect()
}

/// Puts of one size, from a formatted image of 8,192 bytes on. 01's rule takes them all,
/// and then sweep soon answers 28.
pub struct Stuck {
    pub puts: Vec<Call>,
    /// K6's rule takes so many of them and refuses the next
    pub taken: usize,
}

impl Stuck {
    fn new(names: Vec<Vec<u8>>, length: usize, taken: usize) -> Stuck {
        Stuck { puts: names.into_iter().map(|name| Call::Put(name, vec![7; length], ALL)).collect(), taken }
    }
}

/// The fewest puts: the first two records of the head's sector always find the room of two
/// of the largest. Records of 1,368 bytes: 16 + 5 * 1368 = 6856, one more ends at 8224.
/// K6: 16 + 4 * 1368 = 5488 with one file; the second wants 16 + 6 * 1368.
pub fn three_files() -> Stuck {
    Stuck::new(tiny_names(3), 1352, 1)
}

/// As many tiny files as 01's rule takes, of 16 bytes each: 16 + (509 + 2) * 16 = 8192.
/// K6: 16 + (254 + 254 + 2) * 16 = 8176.
pub fn tiny_files() -> Stuck {
    Stuck::new(tiny_names(509), 0, 254)
}
