//! Random names, contents and calls.
use crate::call::Call;
use crate::images::MARKS;
use crate::names::{bad_names, good_names};
use crate::rng::Rng;
use crate::ALL;
use model::*;

/// How long the contents of puts are.
#[derive(Clone, Copy, Debug)]
pub enum Lengths {
    /// all kinds, many of them aimed at a boundary; `small` keeps most below 700
    Rich { small: bool },
    /// records of one size, or half of it, that fill sectors exactly, so that a
    /// sweep's copies end at floor(h) and at N
    Uniform(u64),
    /// a few bytes, now and then (percent) up to half the image
    Short { big: u64 },
}

/// What the contents of puts hold.
#[derive(Clone, Copy, Debug)]
pub enum Contents {
    /// false heads, records and markers
    Marks,
    /// a false record or head at every boundary; the record's size steps past a head
    FalseRecords,
    /// a false record at every boundary, of low byte A5, A4 or A1
    RecordMarks,
    /// one byte over and over with a few marks, which is short to write down
    Plain,
}

/// Makes the calls of a history.
#[derive(Clone, Debug)]
pub struct Maker {
    pub names: Vec<Vec<u8>>,
    /// percent of names that fail the check
    pub bad: u64,
    pub lengths: Lengths,
    pub contents: Contents,
    /// weights of put, remove, sweep, mount, get, list, format
    pub weights: [u64; 7],
    /// percent of calls that are cut, and of mounts where one is due
    pub cut: u64,
    pub due: u64,
}

impl Maker {
    /// Everything random, for long histories.
    pub fn rich(r: &mut Rng) -> Maker {
        let pool = good_names();
        let first = r.below(pool.len() as u64) as usize;
        let count = 1 + r.below(pool.len() as u64) as usize;
        let sweep = r.of(&[5, 20, 40, 60]);
        let lengths = if r.chance(40) {
            Lengths::Uniform(r.of(&[SECTOR / 32, SECTOR / 16, SECTOR / 8, SECTOR / 4, SECTOR / 2, 1360, SECTOR - 16]))
        } else {
            Lengths::Rich { small: r.chance(40) }
        };
        Maker {
            names: (0..count).map(|i| pool[(first + i) % pool.len()].clone()).collect(),
            bad: 2,
            lengths,
            contents: Contents::Marks,
            weights: [90 - sweep, 5, sweep, 2, 1, 1, 0],
            cut: r.of(&[0, 5, 20, 50, 80]),
            due: 75,
        }
    }

    /// Records that fill sectors exactly and hold false records at every boundary:
    /// after a turn T reaches floor(h), with such a record at the start of what is
    /// left of an old head. Random calls come there too seldom.
    pub fn full_sectors(r: &mut Rng) -> Maker {
        Maker {
            lengths: Lengths::Uniform(r.of(&[SECTOR / 8, SECTOR / 4, SECTOR / 2])),
            contents: r.of(&[Contents::FalseRecords, Contents::RecordMarks]),
            weights: [50, 5, 45, 0, 0, 0, 0],
            bad: 0,
            cut: r.of(&[0, 5]),
            ..Maker::rich(r)
        }
    }

    /// Records longer than a sector, so that a move vacates several at once.
    pub fn long_records(r: &mut Rng) -> Maker {
        Maker {
            lengths: Lengths::Uniform(r.of(&[SECTOR, SECTOR + 1024, 2 * SECTOR, 3 * SECTOR])),
            ..Maker::full_sectors(r)
        }
    }

    /// Records that fill no sector exactly, so that the turn needs a marker.
    pub fn with_markers(r: &mut Rng) -> Maker {
        Maker { lengths: Lengths::Uniform(r.of(&[488, 1000, 1360, 2000, 3000])), cut: 30, ..Maker::full_sectors(r) }
    }

    /// Short contents and many cuts: calls with few steps.
    pub fn short(big: u64) -> Maker {
        Maker {
            names: ["a", "b", "dose", "eight888", "seven77", "a b"]
                .map(|s| s.into())
                .into_iter()
                .chain([vec![b'z'; 63]])
                .collect(),
            bad: 5,
            lengths: Lengths::Short { big },
            contents: Contents::Plain,
            weights: [44, 10, 20, 14, 5, 5, 1],
            cut: 60,
            due: 0,
        }
    }

    pub fn name(&self, r: &mut Rng) -> Vec<u8> {
        if r.chance(self.bad) {
            r.of(&bad_names())
        } else {
            r.of(&self.names)
        }
    }

    /// The next call on this image, cut or not.
    pub fn call(&self, r: &mut Rng, img: &[u8]) -> Call {
        let call = self.whole_call(r, img);
        if !r.chance(self.cut) {
            return call;
        }
        let steps = call.plan(img).map_or(vec![], |p| p.steps);
        let need = steps.len() as u64;
        // three steps of many write a marker: half the cuts fall there
        let marker = steps.windows(2).position(|w| matches!(w, [Step::Program(_, 0xFA), Step::Program(_, 0x5A)]));
        call.with_allowance(match (r.below(4), marker) {
            (0 | 1, Some(at)) => at as u64 + r.below(4),
            (0, None) => r.below(need.min(12) + 1),
            (1, None) => need.saturating_sub(r.below(12)),
            _ => r.below(need + 1),
        })
    }

    /// The next call on this image, with every allowance.
    pub fn whole_call(&self, r: &mut Rng, img: &[u8]) -> Call {
        if r.chance(self.due) && rules::read_settled(img).is_err() {
            return Call::Mount(ALL);
        }
        let name = self.name(r);
        let mut k = r.below(self.weights.iter().sum());
        let kind = self.weights.iter().position(|&w| {
            let here = k < w;
            k = k.saturating_sub(w);
            here
        });
        match kind {
            Some(0) => {
                let length = self.length(r, img, &name);
                Call::Put(name, self.content(r, length), ALL)
            }
            Some(1) => Call::Remove(name, ALL),
            Some(2) => Call::Sweep(ALL),
            Some(3) => Call::Mount(ALL),
            Some(4) => Call::Get(name),
            Some(5) => Call::List(r.below(6)),
            _ => Call::Format(ALL),
        }
    }

    fn length(&self, r: &mut Rng, img: &[u8], name: &[u8]) -> u64 {
        let n = img.len() as u64;
        match self.lengths {
            Lengths::Rich { small } => {
                let d = rich_length(r, img, name).min(3 * n);
                if small && r.chance(50) {
                    d % 700
                } else {
                    d
                }
            }
            Lengths::Uniform(size) => {
                let s = if r.chance(70) { size } else { size / 2 };
                s.saturating_sub(size_of(name.len() as u64, 0))
            }
            Lengths::Short { big } if r.chance(big) => r.below(n / 2),
            Lengths::Short { .. } => r.of(&[0, 1, 3, 7, 8, 9, 16, 24, 33]),
        }
    }

    pub fn content(&self, r: &mut Rng, length: u64) -> Vec<u8> {
        match self.contents {
            Contents::Marks if r.chance(66) => marks(r, length),
            Contents::Marks | Contents::FalseRecords => false_records(r, length, &[0xA5, 0xA5, 0xA0, 0x80, 0x00]),
            Contents::RecordMarks => false_records(r, length, &[0xA5, 0xA4, 0xA1]),
            Contents::Plain => plain(r, length),
        }
    }
}

/// Many lengths, most often one that hits a boundary exactly, or nearly.
fn rich_length(r: &mut Rng, img: &[u8], name: &[u8]) -> u64 {
    let n = img.len() as u64;
    match r.below(100) {
        0..=29 => return r.below(25),
        30..=44 => return r.below(300),
        45..=59 => return r.below(1500),
        60..=69 => return r.below(n / 3),
        70..=72 => return r.below(n),
        _ => {}
    }
    let Ok(c) = read_image(img) else { return r.below(50) };
    let f = floor(c.head);
    let sector = floor(c.tail);
    let goal = match r.below(5) {
        0 => n,
        1 => f,
        2 => sector + SECTOR,
        3 => sector + 2 * SECTOR,
        _ => sector + SECTOR * r.below(4),
    };
    let from = if !c.turned && goal == f { 0 } else { c.tail };
    let mut s = goal.saturating_sub(from);
    if r.chance(50) {
        // leave just the room that the next copies of a sweep fill
        let copies = 1 + r.below(4) as usize;
        let sum: u64 = c.live().filter(|x| x.name(img) != name).take(copies).map(|x| x.size).sum();
        let room = if c.turned {
            f.saturating_sub(c.tail)
        } else if r.chance(50) {
            f
        } else {
            n - c.tail
        };
        s = room.saturating_sub(sum);
    }
    let d = s.saturating_sub(size_of(name.len() as u64, 0));
    match r.below(4) {
        0 => d + 8,
        1 => d.saturating_sub(8),
        2 => d.saturating_sub(r.below(8)),
        _ => d,
    }
}

/// At every boundary the same false record, that steps far, or the same false head, with
/// one of these low bytes.
fn false_records(r: &mut Rng, length: u64, lows: &[u8]) -> Vec<u8> {
    let status = r.of(&[0xFC, 0xF8, 0x00, 0xFE, 0xE0, 0x7E]);
    let l = r.of(&[0x61u16, 0x08, 0x0100, 0x0FF0, 0x0E01, 0x1000, 0x1800, 0x03D0]).to_le_bytes();
    let block = [r.of(lows), 0x5A, status, 0xFF, l[0], l[1], 0, 0];
    (0..length as usize).map(|i| block[i % 8]).collect()
}

/// Blocks of eight bytes that look like parts of records.
fn marks(r: &mut Rng, length: u64) -> Vec<u8> {
    let style = r.below(6);
    let mut v = Vec::with_capacity(length as usize + 8);
    while (v.len() as u64) < length {
        let k = if style < 4 { style * 3 + r.below(5) } else { r.below(14) };
        v.extend_from_slice(&match k {
            0 => [0x00, 0x5A, 0xFF, 0xFF, 0xFF, 0xFF, 0xFF, 0xFF],
            1 => [r.of(&[0xA0, 0x80]), 0x5A, 0xFF, 0xFF, 0xFF, 0xFF, 0xFF, 0xFF],
            2 => [r.of(&[0xA5, 0xA4, 0xA1]), 0x5A, 0xFF, 0xFF, 0xFF, 0xFF, 0xFF, 0xFF],
            3 => [0xFA, 0x5A, 0xFF, 0xFF, 0xFF, 0xFF, 0xFF, 0xFF],
            4 => {
                let status = r.of(&[0xFC, 0xF8, 0x00, 0xFE, 0xE0]);
                let l = r.of(&[0u32, 8, 16, 100, 4000, 5000]).to_le_bytes();
                [r.of(&MARKS), 0x5A, status, 0xFF, l[0], l[1], l[2], l[3]]
            }
            5 => [0x61, 0x00, 0xFF, 0xFF, 0xFF, 0xFF, 0xFF, 0xFF],
            6 => [0xFF; 8],
            7 => [0x00; 8],
            8 => [0x00, 0x5A, 0x00, 0x5A, 0x00, 0x5A, 0x00, 0x5A],
            9 => [0xA0, 0x5A, 0xFF, 0xFF, 0, 0, 0, 0],
            10 => [r.of(&[0xA5, 0xB7, 0xFA, 0xFB]), 0xFF, 0xFF, 0xFF, 0xFF, 0xFF, 0xFF, 0xFF],
            11 => [0xFA, 0x5A, 0xF0, 0xFF, 0xFF, 0xFF, 0xFF, 0xFF],
            _ => r.bits().to_le_bytes(),
        });
    }
    v.truncate(length as usize);
    v
}

/// One byte over and over, with up to three marks.
fn plain(r: &mut Rng, length: u64) -> Vec<u8> {
    let mut v = vec![r.of(&[0x11u8, 0xFF, 0x00, 0x77]); length as usize];
    for _ in 0..r.below(4) {
        let a = (r.below(length) / 8 * 8) as usize;
        if let Some(low) = v.get_mut(a) {
            *low = r.of(&[0x00, 0xA0, 0xA5, 0xFA, 0x80, 0xA4, 0xA1, 0xA7]);
        }
        if let Some(high) = v.get_mut(a + 1) {
            *high = 0x5A;
        }
    }
    v
}
