//! Request K7, "Replay of a bus trace": "Our logger records flash traffic as three slices of
//! numbers: kind, address, byte, as in K1. Replay it over a starting image."
use crate::faults::{self, Fault};
use crate::flash::{carry_out, Step};
use crate::geometry::{good_length, SECTOR};
use crate::plan::{planned, Ask};

/// A trace as the logger lends it: kinds, addresses and bytes.
pub type Trace<'a> = [&'a [u32]; 3];

/// What a replay gives back.
#[derive(Clone, Copy, PartialEq, Eq, Debug)]
pub struct Replayed {
    pub answer: u32,
    /// "its position (from 0)": the count of entries before the stop; without a stop, of all
    pub position: u64,
    /// "which of the three": 1 out of range, 2 of unknown kind, 3 a bit from 0 to 1; or 0
    pub stop: u32,
}

/// What the search for the first image that mount would refuse gives back.
#[derive(Clone, Copy, PartialEq, Eq, Debug)]
pub struct Refusing {
    pub answer: u32,
    /// there is a count after which mount would refuse the image
    pub there: bool,
    /// it; where there is none, the count of entries before the stop
    pub count: u64,
}

/// "Slices of unequal length or a bad N are refused with 22."
fn replayable(img: &[u8], [kinds, addresses, bytes]: Trace) -> bool {
    good_length(img.len() as u64) && kinds.len() == addresses.len() && addresses.len() == bytes.len()
}

/// "An erase whose address doesn't start a sector, or a programmed byte above 255, counts as
/// out of range; an erase's byte is ignored."
fn out_of_range(n: u64, kind: u32, address: u64, byte: u32) -> bool {
    let above = byte > 255 && !faults::seeded(Fault::ByteCutOff);
    let above = above && (kind == 1 || faults::seeded(Fault::EraseByteJudged));
    let inside = kind == 2 && address % SECTOR != 0 && !faults::seeded(Fault::EraseInside);
    address >= n || inside || above
}

/// "out of range, of unknown kind, or programs a bit from 0 to 1 .. tested in that order"; 0
/// for an entry that can be carried out.
fn fault(img: &[u8], [kind, address, byte]: [u32; 3]) -> u32 {
    let unknown = !matches!(kind, 1 | 2);
    if unknown && faults::seeded(Fault::KindFirst) {
        return 2;
    }
    let at = u64::from(address);
    if out_of_range(img.len() as u64, kind, at, byte) {
        1
    } else if unknown {
        2
    } else if kind == 1 && byte as u8 & !img[at as usize] != 0 {
        3
    } else {
        0
    }
}

/// The flash step of an entry that can be carried out.
fn step([kind, address, byte]: [u32; 3]) -> Step {
    if kind == 2 {
        Step::Erase(address.into())
    } else {
        Step::Program(address.into(), byte as u8)
    }
}

/// The first entries, as long as they can be carried out and `on` has not had enough; gives
/// their count, and which of the three the next one is. `on` sees the image before each
/// entry, and behind the last.
fn carry(img: &mut [u8], [kinds, addresses, bytes]: Trace, mut on: impl FnMut(&[u8]) -> bool) -> (u64, u32) {
    for i in 0..kinds.len() {
        let entry = [kinds[i], addresses[i], bytes[i]];
        let which = fault(img, entry);
        let unread = which != 0 && faults::seeded(Fault::StopNotRead);
        if !unread && !on(img) {
            return (i as u64, 0);
        }
        if which != 0 {
            return (i as u64, which);
        }
        carry_out(img, &[step(entry)], 1);
    }
    if !faults::seeded(Fault::LastNotRead) {
        on(img);
    }
    (kinds.len() as u64, 0)
}

/// "It stops at the first entry that is [one of the three], and names its position (from 0)
/// and which of the three". "Otherwise the image is that after all entries before the stop."
pub fn replay(img: &mut [u8], trace: Trace) -> Replayed {
    if !replayable(img, trace) {
        return Replayed { answer: 22, position: 0, stop: 0 };
    }
    let (position, stop) = carry(img, trace, |_| true);
    let entry = || trace.map(|slice| slice[position as usize]);
    if stop == 3 && faults::seeded(Fault::StopCarriedOut) {
        carry_out(img, &[step(entry())], 1);
    }
    let position = if stop != 0 && faults::seeded(Fault::StopFromOne) { position + 1 } else { position };
    Replayed { answer: 0, position, stop }
}

fn mount_refuses(img: &[u8]) -> bool {
    planned(img, Ask::Mount).is_err()
}

/// "Also wanted: the least count of entries, 0 too, after which mount would refuse the image,
/// or word that there is none up to the stop." The image is then that after so many.
pub fn first_refused(img: &mut [u8], trace: Trace) -> Refusing {
    if !replayable(img, trace) {
        return Refusing { answer: 22, there: false, count: 0 };
    }
    let mut there = false;
    let mut looks = 0;
    let (count, _) = carry(img, trace, |now| {
        looks += 1;
        let left_out = looks == 1 && faults::seeded(Fault::ZeroNotRead);
        there = !left_out && mount_refuses(now);
        !there
    });
    Refusing { answer: 0, there, count }
}

impl Fault {
    /// The faults of a replay.
    pub const REPLAY: [Fault; 9] = [
        Fault::KindFirst,
        Fault::ByteCutOff,
        Fault::EraseByteJudged,
        Fault::EraseInside,
        Fault::StopCarriedOut,
        Fault::StopFromOne,
        Fault::ZeroNotRead,
        Fault::StopNotRead,
        Fault::LastNotRead,
    ];
}
