//! Images that no history need make: damaged ones, and ones built thing by thing.
use crate::call::formatted;
use crate::cut;
use crate::maker::Maker;
use crate::rng::Rng;
use crate::ALL;
use model::*;

/// What a history of up to `calls` calls leaves, most often settled.
pub fn of_history(r: &mut Rng, n: usize, maker: &Maker, calls: u64) -> Vec<u8> {
    let mut img = formatted(n);
    for _ in 0..r.below(calls) {
        let call = maker.call(r, &img);
        let made = cut::sometimes(r, &img, call);
        cut::run(&mut img, &made);
        if r.chance(60) {
            mount(&mut img, ALL);
        }
    }
    img
}

/// One to four changes, most often near a record's header.
pub fn damage(r: &mut Rng, img: &mut [u8]) {
    for _ in 0..1 + r.below(4) {
        let at = match read_image(img) {
            Ok(c) if r.chance(80) => r.of(&c.records).at as usize,
            _ => r.below(img.len() as u64 / 8) as usize * 8,
        };
        damage_at(r, img, at);
    }
}

fn damage_at(r: &mut Rng, img: &mut [u8], at: usize) {
    let n = img.len() as u64;
    let anywhere = r.below(n / 8) as usize * 8;
    match r.below(12) {
        0 => img[at + 2] = r.of(&[0xFF, 0xFE, 0xFC, 0xF8, 0xF0, 0xE0, 0x00, 0x13, 0x7E, 0x7F, 0xF4, 0xFA]),
        1 => img[at] = r.of(&[0xA5, 0xA0, 0x00, 0xFA, 0xFF, 0x80, 0xA4, 0xA1, 0xFB, 0xFE, 0xB5, 0xFD]),
        2 => img[at + 1] = r.of(&[0x5A, 0xFF, 0x00, 0x5B, 0xDA, 0x12, 0xFB]),
        3 => {
            let l = r.of(&[0u32, 1, 7, 8, 9, 4096, u32::MAX, u32::MAX - 6, 1 << 31]).to_le_bytes();
            img[at + 4..at + 8].copy_from_slice(&l);
        }
        4 => {
            let a = at + 8 + r.below(70) as usize;
            if a < img.len() {
                img[a] = r.of(&[0, 0xFF, b'/', b'a', b' ', 0x5A, 0xA0, 0x80, 0xE1, 0x7F, 0x1F, 0x21, 0x7E]);
            }
        }
        5 => img[at + 3] = r.of(&[0xFF, 0x00]),
        6 => {
            let s = floor(r.below(n)) as usize;
            img[s..s + SECTOR as usize].fill(r.of(&[0xFFu8, 0xFF, 0xFF, 0x00]));
        }
        7 => img[r.below(n) as usize] ^= 1 << r.below(8),
        8 => {
            let l = 8 * (1 + r.below(30)) as usize;
            if at + l <= img.len() && anywhere + l <= img.len() {
                img.copy_within(at..at + l, anywhere);
            }
        }
        9 => {
            img[anywhere] = r.of(&[0xA0, 0x00, 0xA5, 0xFA, 0x80, 0xA4, 0xA1]);
            img[anywhere + 1] = 0x5A;
        }
        10 => img[at] = r.of(&[0xA0, 0x80]),
        _ => img.rotate_right((r.below(200) * 8 % SECTOR) as usize),
    }
}

/// A chain of random things from a random head, with dirt beside it.
pub fn built(r: &mut Rng, n: usize, plain: bool) -> Vec<u8> {
    let h = r.below(n as u64 / 8 - 2) as usize * 8;
    let h = if r.chance(30) { floor(h as u64) as usize } else { h };
    let f = floor(h as u64) as usize;
    let mut b = Builder { img: vec![0xFF; n], p: h, f, turned: false, plain };
    b.things(r);
    let mut img = b.img;
    if r.chance(22) && f > 0 {
        let a = r.below(f as u64 / 8) as usize * 8;
        img[a] = r.of(&[0x33, 0xA5, 0x00]);
    }
    if r.chance(18) && h > f {
        let a = f + r.below((h - f) as u64 / 8) as usize * 8;
        img[a] = r.of(&[0x33, 0xA5, 0x00]);
        img[a + 1] = r.of(&[0x5A, 0x00]);
    }
    img
}

/// The low bytes of the marks that a move cleans away.
pub const MARKS: [u8; 6] = [0x00, 0xA0, 0x80, 0xA5, 0xA4, 0xA1];

/// Three bytes on their ways to a marker's, or a status that isn't.
fn torn_marker(r: &mut Rng) -> [u8; 3] {
    let status = r.of(&[0xFF, 0xFF, 0xF1, 0xFE, 0xF8, 0xE0]);
    [r.of(&[0xFA, 0xFB, 0xFE]), r.of(&[0xFF, 0x5A, 0x5B, 0x7E]), status]
}

struct Builder {
    img: Vec<u8>,
    /// where the next thing goes
    p: usize,
    /// floor(h)
    f: usize,
    turned: bool,
    /// contents of one byte, short to write down
    plain: bool,
}

impl Builder {
    fn end(&self) -> usize {
        if self.turned {
            self.f
        } else {
            self.img.len()
        }
    }

    fn things(&mut self, r: &mut Rng) {
        let things = 1 + r.below(8);
        let mut i = 0;
        while i < things {
            let full = self.p + 24 > self.end();
            if full || (!self.turned && self.f > 0 && i > 0 && r.chance(12)) {
                if self.turned || self.f == 0 || !self.turn(r) {
                    return;
                }
                continue;
            }
            if !self.record(r, i, i + 1 == things) {
                return;
            }
            i += 1;
        }
    }

    /// A marker, torn or not. False: nothing follows.
    fn turn(&mut self, r: &mut Rng) -> bool {
        let p = self.p;
        let torn = r.chance(30);
        if p < self.img.len() {
            let bytes = if torn { torn_marker(r) } else { [0xFA, 0x5A, 0xF0] };
            self.img[p..p + 3].copy_from_slice(&bytes);
        }
        self.turned = true;
        self.p = 0;
        !(torn && r.chance(80))
    }

    /// The i-th record. False: nothing follows.
    fn record(&mut self, r: &mut Rng, i: u64, last: bool) -> bool {
        let (p, end) = (self.p, self.end());
        let low = match i {
            0 => r.of(&[0x00, 0x00, 0xA0, 0x80]),
            1 => r.of(&[0xA5, 0xA5, 0xA4, 0xA1, 0xA0, 0x80, 0x00]),
            _ if r.chance(3) => r.of(&[0xA0, 0x80]),
            _ if r.chance(5) => r.of(&[0xA4, 0xA1]),
            _ => 0xA5,
        };
        let status = match i {
            _ if last => r.of(&[0xFC, 0xF8, 0x00, 0xFE, 0xFE, 0xFF, 0xFF, 0xE0, 0x7F, 0xF0]),
            0 => r.of(&[0, 0, 0xE0, 0xF8, 0xFC, 0x70, 0xF0]),
            _ => r.of(&[0, 0xFC, 0xF8, 0xE0, 0, 0xFC, 0x7E, 0x18]),
        };
        if status == 0xFF {
            self.torn(r);
            return false;
        }
        let (name, d) = self.sizes(r, end - p);
        let size = size_of(name.len() as u64, d as u64) as usize;
        if p + size > end {
            return false;
        }
        self.img[p..p + 3].copy_from_slice(&[low, 0x5A, status]);
        self.img[p + 4..p + 8].copy_from_slice(&(d as u32).to_le_bytes());
        self.img[p + 8..p + 8 + name.len()].copy_from_slice(&name);
        if status != 0xFE || r.chance(55) {
            self.img[p + 8 + name.len()] = 0;
        } else if r.chance(60) {
            self.img[p + 8 + name.len()] = r.of(&[0x80, 0xC0, 0xFE, 0x7F]);
        }
        let at = p + size - up8(d as u64) as usize;
        self.data(r, at, d);
        self.p += size;
        true
    }

    /// A torn record, begun more or less; its first two bytes may break their rule.
    fn torn(&mut self, r: &mut Rng) {
        let p = self.p;
        self.img[p] = r.of(&[0xA5, 0xA5, 0xB5, 0xFD, 0xEF, 0xFE, 0xA4]);
        self.img[p + 1] = r.of(&[0xFF, 0x5A, 0x5B, 0xFE, 0x7A, 0x12]);
        if r.chance(50) {
            self.img[p + 4..p + 6].copy_from_slice(&[3, 0]);
        }
        if r.chance(30) {
            self.img[p + 8] = r.of(&[0u8, 0xFF, 0x61, 0x80]);
        }
    }

    /// A name, and a length of data that may fill the room to the last byte.
    fn sizes(&self, r: &mut Rng, room: usize) -> (Vec<u8>, usize) {
        let mut names: Vec<Vec<u8>> =
            ["a", "b", "c", "dddddddd", "", "eeeeeee", "f/", "A ", "g  h", "i j"].map(|s| s.into()).into();
        if !self.plain && r.chance(6) {
            // a dead record's name may hold a mark
            names = vec![b"dead name\xA0\x5A".to_vec(), b"\x11\x22\x33\x44\x55\x66\x77\x88\xA0\x5A\x01".to_vec()];
        }
        match r.below(100) {
            0..=11 => (b"k".to_vec(), room - 16),
            12..=29 => (r.of(&names), r.below(room as u64 - 23) as usize),
            _ => (r.of(&names), r.below(40) as usize),
        }
    }

    fn data(&mut self, r: &mut Rng, at: usize, d: usize) {
        if self.plain {
            self.img[at..at + d].fill(r.of(&[0x11, 0, 0xFF]));
            if d > 10 && r.chance(40) {
                self.img[at + 8..at + 10].copy_from_slice(&[r.of(&MARKS), 0x5A]);
            }
            return;
        }
        let pattern = [r.of(&MARKS), 0x5A, r.of(&MARKS), 0x5A, r.of(&MARKS), 0x5A, 0xFF, 0x00];
        for k in 0..d {
            self.img[at + k] = pattern[(k + k / 8 * 2) % 8];
        }
        if r.chance(2) && !d.is_multiple_of(8) {
            self.img[at + d] = 0x5A; // dirty padding
        }
    }
}
