//! The two calls of liblilota.a that replay a trace (K7), and a replayer that calls them.
use model::{Refusing, Replayed, Trace};
use std::cell::Cell;
use std::ptr;
use testing::replayer::Replayer;

extern "C" {
    fn lilota_replay(
        image: *mut u8,
        length: usize,
        kinds: *const u32,
        kinds_length: usize,
        addresses: *const u32,
        addresses_length: usize,
        bytes: *const u32,
        bytes_length: usize,
        position: *mut usize,
        stop: *mut u32,
    ) -> u32;
    fn lilota_first_refused(
        image: *mut u8,
        length: usize,
        kinds: *const u32,
        kinds_length: usize,
        addresses: *const u32,
        addresses_length: usize,
        bytes: *const u32,
        bytes_length: usize,
        there: *mut u32,
        count: *mut usize,
    ) -> u32;
}

/// Stand in the numbers before a call: one that the call leaves is seen.
const UNWRITTEN: usize = 0x5EED_0BAD_5EED_0BAD;
const UNWRITTEN_NUMBER: u32 = 0x5EED_0BAD;

/// The library's replays.
#[derive(Default)]
pub struct Replays {
    /// empty slices go by turns as null and as a pointer
    null: Cell<bool>,
}

impl Replays {
    fn slice(&self, part: &[u32]) -> (*const u32, usize) {
        let null = part.is_empty() && self.null.replace(!self.null.get());
        (if null { ptr::null() } else { part.as_ptr() }, part.len())
    }
}

impl Replayer for Replays {
    fn replay(&self, img: &mut [u8], trace: Trace) -> Result<Replayed, String> {
        let [(k, kl), (a, al), (b, bl)] = trace.map(|part| self.slice(part));
        let (mut position, mut stop) = (UNWRITTEN, UNWRITTEN_NUMBER);
        // Safety: each pointer comes with the length of the slice that it is of, or is null with
        // length 0; the slices and the numbers are different ones.
        let answer =
            unsafe { lilota_replay(img.as_mut_ptr(), img.len(), k, kl, a, al, b, bl, &mut position, &mut stop) };
        Ok(Replayed { answer, position: position as u64, stop })
    }

    fn first_refused(&self, img: &mut [u8], trace: Trace) -> Result<Refusing, String> {
        let [(k, kl), (a, al), (b, bl)] = trace.map(|part| self.slice(part));
        let (mut there, mut count) = (UNWRITTEN_NUMBER, UNWRITTEN);
        // Safety: as above.
        let answer =
            unsafe { lilota_first_refused(img.as_mut_ptr(), img.len(), k, kl, a, al, b, bl, &mut there, &mut count) };
        match there {
            0 | 1 => Ok(Refusing { answer, there: there == 1, count: count as u64 }),
            _ => Err(format!("there is {there}")),
        }
    }
}
