//! The shapes of a torn record and of a torn wrap, by their first three bytes.
//! Since a cut may fall inside a byte, each of these may be on its way (K14).
use crate::faults::{self, Fault};
use crate::geometry::*;

/// "on the way from FF to" the goal: no bit of the goal is clear yet.
fn on_way(b: u8, goal: u8) -> bool {
    b & goal == goal
}

/// "a torn first byte may hold any value but FF on the way to A5 (a record, bits 0
/// and 2 both set) or to FA (a wrap marker)": no value but FF is on both ways.
fn first_begun(b: u8, goal: u8) -> bool {
    if faults::seeded(Fault::TornFirstWhole) {
        return b == goal;
    }
    b != 0xFF && on_way(b, goal)
}

/// "the second byte of a torn record or torn marker may hold any value on the way
/// from FF to 5A"
fn second_begun(b: u8) -> bool {
    if faults::seeded(Fault::TornSecondWhole) {
        return matches!(b, 0xFF | 0x5A);
    }
    on_way(b, 0x5A)
}

/// "on a marker any status on the way from FF to F0, but F0 itself, means unfinished"
fn marker_begun(status: u8) -> bool {
    if faults::seeded(Fault::MarkerOpenAtFfOnly) {
        return status == ERASED;
    }
    status != WRAP_STATUS && on_way(status, WRAP_STATUS)
}

/// *Torn*: status FF, first and second byte on their ways to A5 5A.
pub fn torn_shape(img: &[u8], a: u64) -> bool {
    status(img, a) == ERASED && first_begun(byte(img, a), 0xA5) && second_begun(byte(img, a + 1))
}

/// *Torn wrap*: first and second byte on their ways to FA 5A, the status on its way to
/// F0, each judged by itself.
pub fn torn_wrap_shape(img: &[u8], a: u64) -> bool {
    first_begun(byte(img, a), 0xFA) && second_begun(byte(img, a + 1)) && marker_begun(status(img, a))
}
