//! "Placing": whether and where a size fits, and the room that a put is given.
use crate::chain::{Chain, Record};
use crate::faults::{self, Fault};
use crate::geometry::*;

/// Where the next record may go.
#[derive(Clone, Copy, Debug)]
pub struct Place {
    pub head: u64,
    pub tail: u64,
    pub turned: bool,
    pub length: u64,
}

/// A size that fits: its address, the marker's if one is needed, the place after it.
#[derive(Clone, Copy, Debug)]
pub struct Placed {
    pub at: u64,
    pub marker: Option<u64>,
    pub next: Place,
}

impl Place {
    /// "Size s fits: before the turn at T if T+s ≤ N, else at 0 if s ≤ floor(h),
    /// with a wrap marker at T if T < N; after the turn at T if T+s ≤ floor(h)."
    pub fn fit(self, s: u64) -> Option<Placed> {
        let room = if faults::seeded(Fault::TailInHeadSector) { self.head } else { floor(self.head) };
        let end = if self.turned { room } else { self.length };
        if self.tail.saturating_add(s) <= end {
            return Some(Placed { at: self.tail, marker: None, next: Place { tail: self.tail + s, ..self } });
        }
        if self.turned || s > room {
            return None;
        }
        let marker = (self.tail < self.length).then_some(self.tail);
        Some(Placed { at: 0, marker, next: Place { tail: s, turned: true, ..self } })
    }

    /// Whether these sizes fit "one after another".
    pub fn fit_all(self, sizes: &[u64]) -> bool {
        sizes.iter().try_fold(self, |place, &s| Some(place.fit(s)?.next)).is_some()
    }
}

/// K6: "New rule for put: the new record fits; then all live records that begin in the
/// head's sector (the replaced one out, the new one in if it begins there) fit one after
/// another in chain order; then two of the largest."
pub fn put_room(img: &[u8], c: &Chain, name: &[u8], data_len: u64) -> Option<Placed> {
    let s = size_of(name.len() as u64, data_len);
    let placed = c.place(img.len() as u64).fit(s)?;
    placed.next.fit_all(&sizes_behind(img, c, name, s, placed.at)).then_some(placed)
}

/// The sizes that have to fit behind a new record of this name and size at this address.
/// It is the chain's last (decision 54). "the largest size among the live files (the new
/// one in, the replaced one out)" is 01's (decision 24).
pub fn sizes_behind(img: &[u8], c: &Chain, name: &[u8], s: u64, at: u64) -> Vec<u64> {
    let [as_in_01, no_others, no_new] =
        [Fault::RoomAsIn01, Fault::OthersNotCounted, Fault::NewNotCounted].map(faults::seeded);
    let others: Vec<&Record> = c.live().filter(|r| r.name(img) != name).collect();
    let largest = others.iter().map(|r| r.size).fold(s, u64::max);
    let standing = others.iter().filter(|r| c.in_head_sector(r.at) && !as_in_01 && !no_others).map(|r| r.size);
    let joining = (c.in_head_sector(at) && !as_in_01 && !no_new).then_some(s);
    standing.chain(joining).chain([largest, largest]).collect()
}
