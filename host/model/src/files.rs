//! Live files: which records are files, and how they are found.
use crate::bits;
use crate::chain::{Chain, Record};
use crate::faults::{self, Fault};
use crate::geometry::*;
use crate::names::good_name;

impl Record {
    /// "An FC or F8 record with an empty name, and any of status E0, is never a
    /// file and counts as dead in every rule."
    fn may_be_file(&self) -> bool {
        self.name_len > 0 && matches!(self.status, COMMITTED | MIGRATING)
    }
}

impl Chain {
    pub fn live(&self) -> impl Iterator<Item = &Record> {
        self.records.iter().filter(|r| r.live)
    }

    pub fn live_count(&self) -> u64 {
        self.live().count() as u64
    }

    pub fn find_live(&self, img: &[u8], name: &[u8]) -> Option<&Record> {
        self.live().find(|r| r.name(img) == name)
    }
}

/// Marks the live files and the superseded ones: "Live files: every other FC
/// record, and every other F8 record with no FC record of its name." False for
/// "a live name that breaks the name rule, two FC or two F8 of one name".
/// Sorted by name, so that images with many records are read quickly.
pub fn judge(img: &[u8], c: &mut Chain) -> bool {
    let mut files: Vec<usize> = (0..c.records.len()).filter(|&i| c.records[i].may_be_file()).collect();
    if faults::seeded(Fault::BitsTakenForName) && bits::colliding(files.iter().map(|&i| c.records[i].name(img))) > 0 {
        return false;
    }
    // of one name, FC before F8
    files.sort_by_key(|&i| (c.records[i].name(img), u8::MAX - c.records[i].status));
    for k in 0..files.len() {
        let i = files[k];
        let before = files[..k].last().map(|&j| &c.records[j]);
        match before.filter(|b| b.name(img) == c.records[i].name(img)) {
            None => c.records[i].live = true,
            Some(b) if b.status == c.records[i].status => return false,
            Some(_) => c.superseded.push(i),
        }
    }
    c.superseded.sort();
    c.live().all(|r| good_name(r.name(img)))
}
