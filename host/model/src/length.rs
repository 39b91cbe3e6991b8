//! Request K8: "Length without reading the data. Answer from the head address in the mount
//! report by walking headers and names only".
use crate::calls::{accepted, Extent, Refusal, Reply};
use crate::faults::{self, Fault};
use crate::geometry::*;
use crate::names::good_name;

/// What the walk has seen: every stretch it looked at, and the lengths that it found.
#[derive(Default)]
struct Walk {
    seen: Vec<Extent>,
    /// "the first FC record of the name"
    committed: Option<u64>,
    /// "else the first F8"
    migrating: Option<u64>,
}

impl Walk {
    fn look(&mut self, offset: u64, length: u64) {
        self.seen.push(Extent { offset, length });
    }
}

/// A record of the walk: its name's length and its data's.
struct Record {
    status: u8,
    name: Extent,
    data_len: u64,
}

/// The record at `p` that ends at `end` at most, if it can "stand at that place in a
/// settled chain (at the head all but START), each record taken by itself".
fn record_at(img: &[u8], w: &mut Walk, p: u64, end: u64, at_head: bool) -> Option<Record> {
    let (magic, status) = (magic(img, p), status(img, p));
    let any_head = at_head && matches!(magic, RECORD | CLEAN) && faults::seeded(Fault::HeadNotStart);
    if magic != if at_head { START } else { RECORD } && !any_head {
        return None;
    }
    // torn and reserved records are none of a settled chain
    if matches!(status, ERASED | RESERVED) {
        return None;
    }
    let name_len = name_end(img, p).map(|n| n.len);
    // the name with its 00, or 64 bytes that hold none, as far as records may go
    w.look(p + 8, name_len.map_or(64, |n| n + 1).min(end - p - 8));
    let name = Extent { offset: p + 8, length: name_len? };
    let data_len = data_len(img, p);
    let file = name.length > 0 && matches!(status, COMMITTED | MIGRATING);
    let past = p + size_of(name.length, data_len) > end;
    if past || file && !good_name(name.of(img)) {
        return None;
    }
    Some(Record { status, name, data_len })
}

/// The walk from the head, or None if it "meets what can't stand".
fn walk(img: &[u8], head: u64, name: &[u8], w: &mut Walk) -> Option<()> {
    let n = img.len() as u64;
    let (mut p, mut turned) = (head, false);
    loop {
        if !turned && p == n && floor(head) > 0 {
            (p, turned) = (0, true);
        }
        let end = if turned { floor(head) } else { n };
        // "at a turn's limit or, with floor(h) = 0, at N"
        if p == end {
            return Some(());
        }
        let at_head = !turned && p == head;
        w.look(p, 8);
        // "ending at the first eight FF bytes"; at the head they are no START
        if blank(img, p, p + 8) {
            return (!at_head).then_some(());
        }
        if byte(img, p + 3) != 0xFF {
            return None;
        }
        if magic(img, p) == WRAP && !at_head {
            if status(img, p) != WRAP_STATUS || turned || floor(head) == 0 {
                return None;
            }
            (p, turned) = (0, true);
            continue;
        }
        let r = record_at(img, w, p, end, at_head)?;
        if r.name.length > 0 && r.name.of(img) == name {
            match r.status {
                COMMITTED => _ = w.committed.get_or_insert(r.data_len),
                MIGRATING => _ = w.migrating.get_or_insert(r.data_len),
                _ => (),
            }
            if faults::seeded(Fault::StopsAtName) {
                return Some(());
            }
        }
        p += size_of(r.name.length, r.data_len);
    }
}

fn measured(img: &[u8], head: u64, name: &[u8], w: &mut Walk) -> Result<u64, Refusal> {
    // "Get's 22 comes first"
    accepted(img, Some(name))?;
    // "5 if the head isn't an 8-byte boundary below N"
    if !head.is_multiple_of(8) || head >= img.len() as u64 {
        return Err(5.into());
    }
    walk(img, head, name, w).ok_or(Refusal::from(5))?;
    let found = if faults::seeded(Fault::MigratingFirst) {
        w.migrating.or(w.committed)
    } else {
        w.committed.or(w.migrating)
    };
    found.ok_or(Refusal::from(2))
}

/// The length of the file of this name, as `size`; and every stretch that was looked at:
/// "all headers and names on that walk, and .. the end that stops it".
pub fn length(img: &[u8], head: u64, name: &[u8]) -> (Reply, Vec<Extent>) {
    let mut w = Walk::default();
    let reply = match measured(img, head, name, &mut w) {
        Ok(size) => Reply { size, ..Reply::default() },
        Err(refusal) => refusal.into(),
    };
    (reply, w.seen)
}

impl Fault {
    /// The faults of this call alone.
    pub const LENGTHS: [Fault; 3] = [Fault::HeadNotStart, Fault::MigratingFirst, Fault::StopsAtName];
}
