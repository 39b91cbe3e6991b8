//! "Chain and tail T", with the "Last thing in the chain only".
use crate::faults::{self, Fault};
use crate::files;
use crate::geometry::*;
use crate::place::Place;
use crate::torn::{torn_shape, torn_wrap_shape};

#[derive(Clone, Debug)]
pub struct Record {
    pub at: u64,
    pub size: u64,
    pub magic: u16,
    pub status: u8,
    pub torn: bool,
    pub name_len: u64,
    /// the byte of 80 or more that counts as the 00, in a reserved record
    pub missing: Option<u64>,
    pub data_at: u64,
    pub data_len: u64,
    /// stands after the turn
    pub turned: bool,
    /// is a live file; known once the chain is whole
    pub live: bool,
}

impl Record {
    pub fn name<'a>(&self, img: &'a [u8]) -> &'a [u8] {
        &img[(self.at + 8) as usize..(self.at + 8 + self.name_len) as usize]
    }

    pub fn data<'a>(&self, img: &'a [u8]) -> &'a [u8] {
        &img[self.data_at as usize..(self.data_at + self.data_len) as usize]
    }

    /// a START or CLEAN; a torn record's first byte is on the way to A5 and is none
    pub fn marked(&self) -> bool {
        matches!(self.magic, START | CLEAN)
    }

    /// torn or reserved
    pub fn unfinished(&self) -> bool {
        self.torn || self.status == RESERVED
    }
}

#[derive(Clone, Debug)]
pub struct Chain {
    pub head: u64,
    pub records: Vec<Record>,
    pub turned: bool,
    pub tail: u64,
    pub marker: Option<u64>,
    pub torn_wrap: Option<u64>,
    /// the F8 records with an FC record of their name, in chain order
    pub superseded: Vec<usize>,
}

impl Chain {
    /// Whether what begins at this address begins "in the head's sector".
    pub fn in_head_sector(&self, at: u64) -> bool {
        floor(at) == floor(self.head)
    }

    pub fn place(&self, n: u64) -> Place {
        Place { head: self.head, tail: self.tail, turned: self.turned, length: n }
    }

    /// "Free run: before the turn [T, N) and [0, floor(h)), after it [T, floor(h))",
    /// in ascending order.
    pub fn free_run(&self, n: u64) -> Vec<(u64, u64)> {
        let f = floor(self.head);
        if self.turned {
            vec![(self.tail, f)]
        } else {
            vec![(0, f), (self.tail, n)]
        }
    }
}

/// The torn record at `p`: "counts 16 bytes". Its length bytes and its bytes 9 to 15
/// have no rule (decision 8); K14: "a torn record's byte 8 may hold anything".
fn torn_at(img: &[u8], p: u64, end: u64) -> Option<Record> {
    let odd = faults::seeded(Fault::TornByte8Judged) && !matches!(byte(img, p + 8), 0xFF | 0x00);
    if p + 16 > end || odd {
        return None;
    }
    Some(Record {
        at: p,
        size: 16,
        magic: magic(img, p),
        status: ERASED,
        torn: true,
        name_len: 0,
        missing: None,
        data_at: p + 16,
        data_len: 0,
        turned: false,
        live: false,
    })
}

/// K14: "any record status but FF, FE, FC, F8 is dead". A record of status FF that
/// isn't torn, as A4 5A FF, is none.
fn record_status(status: u8) -> bool {
    if faults::seeded(Fault::OtherStatusRefused) {
        return matches!(status, RESERVED | COMMITTED | MIGRATING | WEAR | DELETED);
    }
    status != ERASED
}

/// The record at `p`. None: "another magic or status", "a name without 00 in 64
/// bytes", of a reserved one without a byte of 80 or more too, "a record past its
/// end". FE may stand on a START or CLEAN record too (decision 9).
fn record_at(img: &[u8], p: u64, end: u64) -> Option<Record> {
    let (magic, status) = (magic(img, p), status(img, p));
    if !matches!(magic, RECORD | START | CLEAN) || !record_status(status) {
        return None;
    }
    let name = name_end(img, p)?;
    let data_len = data_len(img, p);
    let size = size_of(name.len, data_len);
    if p + size > end {
        return None;
    }
    Some(Record {
        at: p,
        size,
        magic,
        status,
        torn: false,
        name_len: name.len,
        missing: name.missing,
        data_at: p + 8 + up8(name.len + 1),
        data_len,
        turned: false,
        live: false,
    })
}

/// The chain's things from the head on, up to the tail.
fn follow(img: &[u8], head: u64) -> Option<Chain> {
    let n = img.len() as u64;
    let f = floor(head);
    let mut c = Chain {
        head,
        records: Vec::new(),
        turned: false,
        tail: 0,
        marker: None,
        torn_wrap: None,
        superseded: Vec::new(),
    };
    let mut p = head;
    loop {
        // "or at N, the chain goes on at 0, if floor(h) > 0"; "with floor(h) = 0
        // a chain at N ends with T = N" (decision 6)
        if !c.turned && p == n && f > 0 {
            c.turned = true;
            p = 0;
        }
        // "Records before the turn end at N at most, after it at floor(h) at most."
        let end = if c.turned { f } else { n };
        // "T is the first place with eight FF bytes or, after the turn, floor(h)."
        if p == end || blank(img, p, p + 8) {
            c.tail = p;
            return Some(c);
        }
        // "Last thing in the chain only, markers counted": something stands here
        if c.records.last().is_some_and(Record::unfinished) {
            return None;
        }
        if torn_wrap_shape(img, p) {
            // "legal only before the turn with floor(h) > 0; all from its byte 3
            // up to N is FF; T is then 0": the turn is made (decision 7)
            if c.turned || f == 0 || !blank(img, p + 3, n) {
                return None;
            }
            c.torn_wrap = Some(p);
            c.turned = true;
            c.tail = 0;
            return Some(c);
        }
        // "a reserved byte not FF", of markers and torn records too (decision 8)
        if byte(img, p + 3) != 0xFF {
            return None;
        }
        if magic(img, p) == WRAP {
            // "After a wrap marker (magic 5AFA, status F0) .. the chain goes on at
            // 0"; "a marker after the turn, or with floor(h) = 0, is refusal 5"
            if status(img, p) != WRAP_STATUS || c.turned || f == 0 {
                return None;
            }
            c.marker = Some(p);
            c.turned = true;
            p = 0;
            continue;
        }
        let at = if torn_shape(img, p) { torn_at(img, p, end) } else { record_at(img, p, end) };
        let record = Record { turned: c.turned, ..at? };
        p += record.size;
        c.records.push(record);
    }
}

/// The chain from a head on, or refusal 5, which is "any chain that breaks these rules".
pub fn read_chain(img: &[u8], head: u64) -> Result<Chain, u32> {
    let judged = follow(img, head).and_then(|mut c| {
        let legal = files::judge(img, &mut c) && crate::rules::marks_legal(&c) && crate::rules::free_run_legal(img, &c);
        legal.then_some(c)
    });
    judged.ok_or(5)
}
