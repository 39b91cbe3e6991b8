//! The images that are measured: settled, with files of one size.
use model::{floor, put_room, read_image, size_of, up8, SECTOR};
use std::collections::BTreeSet;
use testing::aimed::write_record;
use testing::call::formatted;
use testing::rng::Rng;

/// What the measured put writes.
pub const CONTENT: [u8; 16] = [0x77; 16];

#[derive(Clone, Copy, PartialEq, Eq, Debug)]
pub enum Fill {
    /// a store just formatted and filled: small files from 0 on, and then nothing
    Empty,
    /// a store long in use: its head in the middle, the chain past N and on from 0, dead records between the files,
    /// and about as much free as a put asks for
    Full,
}

impl Fill {
    pub fn word(self) -> &'static str {
        match self {
            Fill::Empty => "empty",
            Fill::Full => "full",
        }
    }
}

/// The names of so many files, of up to seven bytes. Each set is drawn anew, by turns letters with a number that counts up, and letters and
/// digits by chance: nothing in the library or in the C was made for any of them.
pub fn names(set: u64, files: usize) -> Vec<Vec<u8>> {
    let r = &mut Rng::new(1000 + set);
    if set % 2 == 0 {
        let letters: String = (0..1 + r.below(2)).map(|_| r.of(LETTERS) as char).collect();
        return (0..files).map(|i| format!("/{letters}{i}").into_bytes()).collect();
    }
    let mut names = Vec::new();
    let mut known = BTreeSet::new();
    while names.len() < files {
        let name: Vec<u8> = (0..4 + r.below(4)).map(|_| r.of(LETTERS)).collect();
        if known.insert(name.clone()) {
            names.push(name);
        }
    }
    names
}

const LETTERS: &[u8] = b"abcdefghijklmnopqrstuvwxyz0123456789";

/// An image, and the names of its files in their order.
pub struct Settled {
    pub img: Vec<u8>,
    pub names: Vec<Vec<u8>>,
}

impl Settled {
    pub fn last(&self) -> Vec<u8> {
        self.names.last().expect("there is a file").clone()
    }
}

/// A settled image of so many files with the names of a set; none if they and a put don't fit.
pub fn settled(n: usize, files: usize, fill: Fill, set: u64) -> Option<Settled> {
    let names = names(set, files);
    let img = match fill {
        Fill::Empty => empty(n, &names),
        Fill::Full => full(n, &names),
    }?;
    let mut left = img.clone();
    let reply = model::mount(&mut left, 0);
    assert_eq!((reply.answer, reply.report.files), (0, files as u64), "the image is settled");
    let chain = read_image(&img).expect("it is settled");
    put_room(&img, &chain, &names[files - 1], CONTENT.len() as u64).map(|_| Settled { img, names })
}

/// Files of 8 bytes.
fn empty(n: usize, names: &[Vec<u8>]) -> Option<Vec<u8>> {
    let mut img = formatted(n);
    let mut at = 16;
    for name in names {
        if at + size_of(name.len() as u64, 8) > n as u64 {
            return None;
        }
        at = write_record(&mut img, at, [0xA5, 0x5A, 0xFC], name, &[0x11; 8]);
    }
    Some(img)
}

/// Records of one size: about twice as many as files, but not too few, so that the largest leaves room for the rule of
/// put. The files stand evenly among them, and a dead record has the name of the file behind it.
fn full(n: usize, names: &[Vec<u8>]) -> Option<Vec<u8>> {
    let (end, files) = (n as u64, names.len());
    let head = end / 2 + 64;
    let size = ((end - 4 * SECTOR) / (2 * files as u64).max(32) / 8 * 8).max(24);
    let free = (40 + SECTOR + 3 * size).max(2 * SECTOR);
    let before = (end - head - 16) / size;
    let after = floor(head).checked_sub(free)? / size;
    let records = (before + after) as usize;
    if records < files {
        return None;
    }
    let mut img = vec![0xFF; n];
    // the head that was there before
    img[floor(head) as usize..head as usize].fill(0x00);
    let mut at = write_record(&mut img, head, [0x00, 0x5A, 0x00], b"", b"");
    let mut live = 0;
    for i in 0..records {
        if i as u64 == before {
            at = turned(&mut img, at);
        }
        let is_live = i * files % records < files;
        let status = if is_live { 0xFC } else { 0x00 };
        let name = &names[live % files];
        let data = vec![0x11; (size - 8 - up8(name.len() as u64 + 1)) as usize];
        at = write_record(&mut img, at, [0xA5, 0x5A, status], name, &data);
        live += is_live as usize;
    }
    Some(img)
}

/// The chain goes on at 0, behind a marker if it isn't at N.
fn turned(img: &mut [u8], at: u64) -> u64 {
    if let Some(marker) = img.get_mut(at as usize..at as usize + 3) {
        marker.copy_from_slice(&[0xFA, 0x5A, 0xF0]);
    }
    0
}

#[cfg(test)]
mod tests {
    use super::*;

    #[test]
    fn all_but_none_fit() {
        for n in [64, 1024, 16 * 1024].map(|kib| kib * 1024) {
            for files in [1, 16, 256, 2048] {
                for fill in [Fill::Empty, Fill::Full] {
                    let img = settled(n, files, fill, 1).unwrap_or_else(|| panic!("{n}, {files}, {fill:?}")).img;
                    let chain = read_image(&img).expect("it is settled");
                    assert_eq!(chain.turned, fill == Fill::Full);
                    let free: u64 = chain.free_run(n as u64).iter().map(|(from, to)| to - from).sum();
                    let most = if fill == Fill::Full { n as u64 / 6 } else { n as u64 };
                    assert!(free <= most, "{n}, {files}, {fill:?}: {free} free");
                }
            }
        }
    }

    #[test]
    fn too_many_files() {
        assert!(settled(64 * 1024, 3000, Fill::Empty, 0).is_none());
        assert!(settled(64 * 1024, 3000, Fill::Full, 0).is_none());
    }

    #[test]
    fn names_are_good_and_each_set_has_its_own() {
        let mut all = BTreeSet::new();
        for set in 0..40 {
            let names = names(set, 2048);
            assert!(names.iter().all(|name| name.len() <= 7 && model::good_name(name)));
            assert_eq!(names.iter().collect::<BTreeSet<_>>().len(), 2048);
            assert!(all.insert(names));
        }
    }
}
