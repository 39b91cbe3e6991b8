//! "A file name has 1 to 63 bytes, each 21 to 7E hex, the last not '/'", with request K5:
//! "Allow 20 hex, except as first or last byte. The name check must also say what is
//! wrong".
use crate::faults::{self, Fault};

/// The reasons, in the order in which they are tested.
pub const EMPTY: u32 = 1;
pub const TOO_LONG: u32 = 2;
pub const BAD_BYTE: u32 = 3;
pub const FINAL_SLASH: u32 = 4;

/// What the name check says: a reason, 0 if nothing is wrong, and of a bad byte the place of
/// the first.
#[derive(Clone, Copy, PartialEq, Eq, Debug, Default)]
pub struct NameFault {
    pub reason: u32,
    pub place: u64,
}

impl NameFault {
    /// Without a place: "else 0".
    fn of(reason: u32) -> NameFault {
        NameFault { reason, place: 0 }
    }
}

/// The byte at this place of a name may stand there.
fn may_stand(name: &[u8], place: usize) -> bool {
    match name[place] {
        0x21..=0x7E => true,
        0x20 if faults::seeded(Fault::SpaceRefused) => false,
        0x20 => {
            let [first, last] = [place == 0, place + 1 == name.len()];
            (!first || faults::seeded(Fault::SpaceFirst)) && (!last || faults::seeded(Fault::SpaceLast))
        }
        _ => false,
    }
}

/// "bad byte with the first one's place (from 0 ..)"
fn bad_byte(name: &[u8]) -> Option<NameFault> {
    let place = (0..name.len()).find(|&i| !may_stand(name, i))?;
    let from = faults::seeded(Fault::PlaceFromOne) as u64;
    Some(NameFault { reason: BAD_BYTE, place: place as u64 + from })
}

fn final_slash(name: &[u8]) -> Option<NameFault> {
    name.ends_with(b"/").then(|| NameFault::of(FINAL_SLASH))
}

/// K5: "empty, too long, bad byte with the first one's place (from 0; else 0), or final
/// slash, tested in that order (1 to 4 ..)". Zeros for a good name.
pub fn name_fault(name: &[u8]) -> NameFault {
    if name.is_empty() {
        return NameFault::of(EMPTY);
    }
    if name.len() > 63 {
        return NameFault::of(TOO_LONG);
    }
    let [first, second] =
        if faults::seeded(Fault::SlashFirst) { [final_slash, bad_byte] } else { [bad_byte, final_slash] };
    first(name).or_else(|| second(name)).unwrap_or_default()
}

/// A name that a file may have; the reading's rule for live names too.
pub fn good_name(name: &[u8]) -> bool {
    name_fault(name).reason == 0
}

impl Fault {
    /// The faults of the name check and of what put, get and remove give back of it. A
    /// history checks no reason, and by its own rule a wrong name is kept like any other.
    pub const NAMES: [Fault; 6] = [
        Fault::SpaceRefused,
        Fault::SpaceFirst,
        Fault::SpaceLast,
        Fault::PlaceFromOne,
        Fault::SlashFirst,
        Fault::ReasonWhereNBad,
    ];
}
