//! The replays (K7) of the stand-in: the model's under the C names.
use crate::{fault, slice_mut, TRIPPED};
use model::faults;
use model::{first_refused, replay, Refusing, Replayed, Trace};
use std::panic::{catch_unwind, AssertUnwindSafe};

/// One lent slice: its first entry and its length.
type Part = (*const u32, usize);

fn seeded<T>(run: impl FnOnce() -> T, tripped: T) -> T {
    let run = || match fault() {
        Some(f) => faults::with(f, run),
        None => run(),
    };
    catch_unwind(AssertUnwindSafe(run)).unwrap_or(tripped)
}

/// # Safety
/// As include/lilota.h says.
unsafe fn parts<'a>(parts: [Part; 3]) -> Trace<'a> {
    parts.map(|(at, length)| if length == 0 { &[][..] } else { std::slice::from_raw_parts(at, length) })
}

/// # Safety
/// As include/lilota.h says.
#[no_mangle]
pub unsafe extern "C" fn lilota_replay(
    image: *mut u8,
    length: usize,
    kinds: *const u32,
    kinds_length: usize,
    addresses: *const u32,
    addresses_length: usize,
    bytes: *const u32,
    bytes_length: usize,
    position: *mut usize,
    stop: *mut u32,
) -> u32 {
    let trace = parts([(kinds, kinds_length), (addresses, addresses_length), (bytes, bytes_length)]);
    let tripped = Replayed { answer: TRIPPED, position: 0, stop: 0 };
    let told = seeded(|| replay(slice_mut(image, length), trace), tripped);
    *position = told.position as usize;
    *stop = told.stop;
    told.answer
}

/// # Safety
/// As include/lilota.h says.
#[no_mangle]
pub unsafe extern "C" fn lilota_first_refused(
    image: *mut u8,
    length: usize,
    kinds: *const u32,
    kinds_length: usize,
    addresses: *const u32,
    addresses_length: usize,
    bytes: *const u32,
    bytes_length: usize,
    there: *mut u32,
    count: *mut usize,
) -> u32 {
    let trace = parts([(kinds, kinds_length), (addresses, addresses_length), (bytes, bytes_length)]);
    let tripped = Refusing { answer: TRIPPED, there: false, count: 0 };
    let told = seeded(|| first_refused(slice_mut(image, length), trace), tripped);
    *there = u32::from(told.there);
    *count = told.count as usize;
    told.answer
}
