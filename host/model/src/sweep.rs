//! "Move of head X, next record Y", and the sweep.
use crate::chain::{read_chain, Chain, Record};
use crate::faults::{self, Fault};
use crate::flash::{Draft, Step};
use crate::geometry::*;
use crate::write::{put_steps, Old};

/// (c) "in X's data, at each 8-byte boundary with" a mark, "the second byte to 00,
/// ascending": both bytes lie in the data (decision 21).
fn clean(d: &mut Draft, x: &Record) {
    let end = x.data_at + x.data_len;
    for a in (x.data_at..end).step_by(8) {
        if a + 1 < end && mark(&d.img, a) {
            d.program(a + 1, 0x00);
        }
    }
}

/// (d) "erase, ascending, the sectors from X's to the one before Y's (to N if Y
/// is at 0 after a turn)", FF or not (decision 16).
fn vacated(n: u64, x: &Record, y: &Record) -> Vec<u64> {
    let to = if y.turned && !x.turned { n } else { floor(y.at) };
    (floor(x.at)..to).step_by(SECTOR as usize).collect()
}

/// (e) "Y's low byte 00"; K14: "a low magic byte of A0 goes to 80 and then to 00
/// (from 80 only the last), in a move and in every repair".
pub fn to_start(d: &mut Draft, at: u64) {
    if byte(&d.img, at) == 0xA0 && !faults::seeded(Fault::StartAtOnce) {
        d.program(at, 0x80);
    }
    d.program(at, 0x00);
}

/// Steps (c) to (f) of a move; also repair 2 of a mount.
pub fn close(d: &mut Draft, x: &Record, y: &Record) {
    let late = faults::seeded(Fault::CleanedLate);
    if !late && !faults::seeded(Fault::NotCleaned) {
        clean(d, x);
    }
    let sectors = vacated(d.img.len() as u64, x, y);
    let early = faults::seeded(Fault::StartBeforeErase);
    if early {
        to_start(d, y.at);
    }
    for &a in &sectors {
        d.erase(a);
    }
    if !early {
        to_start(d, y.at);
    }
    if late && sectors.is_empty() {
        clean(d, x);
    }
    // (f) "X's second byte 00 if X wasn't erased"
    if sectors.is_empty() {
        d.program(x.at + 1, 0x00);
    }
}

/// The step list of a sweep, how many steps are done at the end of each move, and the
/// chain of the image that it leaves.
pub struct SweepSteps {
    pub steps: Vec<Step>,
    pub ends: Vec<u64>,
    pub left: Chain,
}

/// One move, on from the chain `c`. None: X is live and doesn't fit.
fn make_move(d: &mut Draft, mut c: Chain) -> Option<Chain> {
    let x = c.records[0].clone();
    if x.live {
        // (a) "a live X is copied as in put, from F8 to its own status 00"
        let placed = c.place(d.img.len() as u64).fit(x.size)?;
        let old = Old { at: x.at, status: x.status };
        let copy = put_steps(Some(old), &placed, x.name(&d.img), x.data(&d.img));
        d.extend(copy);
        c = read_chain(&d.img, c.head).expect("a copy leaves a legal chain");
    }
    // (b) "Y's low byte A0"
    let (x, y) = (c.records[0].clone(), c.records[1].clone());
    d.program(y.at, 0xA0);
    close(d, &x, &y);
    Some(read_chain(&d.img, y.at).expect("a move leaves a legal chain"))
}

/// "Sweep makes min(5, records at entry) moves (markers aren't records), stopping
/// early if the head is not live and is the last record, or is live and doesn't
/// fit." None: "no move made, for want of room" (decision 22).
pub fn sweep_steps(img: &[u8], mut c: Chain) -> Option<SweepSteps> {
    let mut d = Draft::new(img);
    let mut ends = Vec::new();
    for _ in 0..c.records.len().min(5) {
        if !c.records[0].live && c.records.len() == 1 {
            break;
        }
        match make_move(&mut d, c.clone()) {
            Some(next) => c = next,
            None if ends.is_empty() => return None,
            None => break,
        }
        ends.push(d.steps.len() as u64);
    }
    Some(SweepSteps { steps: d.steps, ends, left: c })
}
