//! A stand-in for the proved library, for tests of the tests alone: the model
//! under the C names of include/lilota.h. With a name of `model::faults::Fault`
//! in STANDIN_FAULT it is wrong in that way, and a comparison must notice.
//!
//! Nothing here is proved and nothing of it is delivered.
mod plans;
mod traces;

use model::faults::{self, Fault};
use model::{NameFault, Reply, Space, Verdict};
use std::panic::{catch_unwind, AssertUnwindSafe};
use std::sync::OnceLock;

/// A wrong model may trip over the image that it made itself.
const TRIPPED: u32 = 99;

fn fault() -> Option<Fault> {
    static FAULT: OnceLock<Option<Fault>> = OnceLock::new();
    *FAULT.get_or_init(|| {
        let name = std::env::var("STANDIN_FAULT").ok()?;
        let mut all =
            Fault::ALL.into_iter().chain(Fault::NAMES).chain(Fault::LENGTHS).chain(Fault::PLANNER).chain(Fault::REPLAY);
        let found = all.find(|f| format!("{f:?}") == name);
        Some(found.unwrap_or_else(|| panic!("no fault {name}")))
    })
}

fn run(call: impl FnOnce() -> Reply) -> Reply {
    let seeded = || match fault() {
        Some(f) => faults::with(f, call),
        None => call(),
    };
    catch_unwind(AssertUnwindSafe(seeded)).unwrap_or(Reply::refusal(TRIPPED))
}

/// # Safety
/// Pointers to four numbers.
unsafe fn give_space(s: Space, to: [*mut usize; 4]) {
    for (number, at) in [s.live, s.dead, s.free, s.lost].into_iter().zip(to) {
        *at = number as usize;
    }
}

/// # Safety
/// Pointers to two numbers.
unsafe fn give_name(fault: NameFault, reason: *mut u32, place: *mut usize) {
    *reason = fault.reason;
    *place = fault.place as usize;
}

/// # Safety
/// A pointer, not null unless the length is 0, to so many bytes.
unsafe fn slice<'a>(at: *const u8, length: usize) -> &'a [u8] {
    if length == 0 {
        &[]
    } else {
        std::slice::from_raw_parts(at, length)
    }
}

/// # Safety
/// As `slice`, of any type, and nothing else has these.
unsafe fn slice_mut<'a, T>(at: *mut T, length: usize) -> &'a mut [T] {
    if length == 0 {
        &mut []
    } else {
        std::slice::from_raw_parts_mut(at, length)
    }
}

/// # Safety
/// As include/lilota.h says.
#[no_mangle]
pub unsafe extern "C" fn lilota_format(image: *mut u8, length: usize, allowance: usize, steps: *mut usize) -> u32 {
    let reply = run(|| model::format(slice_mut(image, length), allowance as u64));
    *steps = reply.steps as usize;
    reply.answer
}

/// # Safety
/// As include/lilota.h says.
#[no_mangle]
pub unsafe extern "C" fn lilota_mount(
    image: *mut u8,
    length: usize,
    allowance: usize,
    head: *mut usize,
    tail: *mut usize,
    files: *mut usize,
    live: *mut usize,
    dead: *mut usize,
    free: *mut usize,
    lost: *mut usize,
    steps: *mut usize,
) -> u32 {
    let reply = run(|| model::mount(slice_mut(image, length), allowance as u64));
    *head = reply.report.head as usize;
    *tail = reply.report.tail as usize;
    *files = reply.report.files as usize;
    give_space(reply.space, [live, dead, free, lost]);
    *steps = reply.steps as usize;
    reply.answer
}

/// # Safety
/// As include/lilota.h says.
#[no_mangle]
pub unsafe extern "C" fn lilota_put(
    image: *mut u8,
    length: usize,
    name: *const u8,
    name_length: usize,
    content: *const u8,
    content_length: usize,
    allowance: usize,
    reason: *mut u32,
    place: *mut usize,
    live: *mut usize,
    dead: *mut usize,
    free: *mut usize,
    lost: *mut usize,
    steps: *mut usize,
) -> u32 {
    let (name, content) = (slice(name, name_length), slice(content, content_length));
    let reply = run(|| model::put(slice_mut(image, length), name, content, allowance as u64));
    give_name(reply.name, reason, place);
    give_space(reply.space, [live, dead, free, lost]);
    *steps = reply.steps as usize;
    reply.answer
}

/// # Safety
/// As include/lilota.h says.
#[no_mangle]
pub unsafe extern "C" fn lilota_get(
    image: *const u8,
    length: usize,
    name: *const u8,
    name_length: usize,
    reason: *mut u32,
    place: *mut usize,
    offset: *mut usize,
    size: *mut usize,
) -> u32 {
    let reply = run(|| model::get(slice(image, length), slice(name, name_length)));
    give_name(reply.name, reason, place);
    *offset = reply.extent.offset as usize;
    *size = reply.extent.length as usize;
    reply.answer
}

/// # Safety
/// As include/lilota.h says.
#[no_mangle]
pub unsafe extern "C" fn lilota_length(
    image: *const u8,
    length: usize,
    head: usize,
    name: *const u8,
    name_length: usize,
    reason: *mut u32,
    place: *mut usize,
    size: *mut usize,
) -> u32 {
    let reply = run(|| model::length(slice(image, length), head as u64, slice(name, name_length)).0);
    give_name(reply.name, reason, place);
    *size = reply.size as usize;
    reply.answer
}

/// # Safety
/// As include/lilota.h says.
#[no_mangle]
pub unsafe extern "C" fn lilota_check(
    image: *const u8,
    length: usize,
    verdict: *mut u32,
    number: *mut u32,
    address: *mut usize,
) -> u32 {
    let (answer, told) = match model::check(slice(image, length)) {
        Err(answer) => (answer, (0, 0, 0)),
        Ok(Verdict::Settled) => (0, (0, 0, 0)),
        Ok(Verdict::Recovery(repair)) => (0, (1, repair, 0)),
        Ok(Verdict::Broken(rule, at)) => (0, (2, rule as u32 + 1, at as usize)),
    };
    (*verdict, *number, *address) = told;
    answer
}

/// # Safety
/// As include/lilota.h says.
#[no_mangle]
pub unsafe extern "C" fn lilota_list(
    image: *const u8,
    length: usize,
    index: usize,
    name_offset: *mut usize,
    name_length: *mut usize,
    size: *mut usize,
) -> u32 {
    let reply = run(|| model::list(slice(image, length), index as u64));
    *name_offset = reply.extent.offset as usize;
    *name_length = reply.extent.length as usize;
    *size = reply.size as usize;
    reply.answer
}

/// # Safety
/// As include/lilota.h says.
#[no_mangle]
pub unsafe extern "C" fn lilota_remove(
    image: *mut u8,
    length: usize,
    name: *const u8,
    name_length: usize,
    allowance: usize,
    reason: *mut u32,
    place: *mut usize,
    steps: *mut usize,
) -> u32 {
    let reply = run(|| model::remove(slice_mut(image, length), slice(name, name_length), allowance as u64));
    give_name(reply.name, reason, place);
    *steps = reply.steps as usize;
    reply.answer
}

/// # Safety
/// As include/lilota.h says.
#[no_mangle]
pub unsafe extern "C" fn lilota_sweep(
    image: *mut u8,
    length: usize,
    allowance: usize,
    moves: *mut usize,
    live: *mut usize,
    dead: *mut usize,
    free: *mut usize,
    lost: *mut usize,
    steps: *mut usize,
) -> u32 {
    let reply = run(|| model::sweep(slice_mut(image, length), allowance as u64));
    *moves = reply.moves as usize;
    give_space(reply.space, [live, dead, free, lost]);
    *steps = reply.steps as usize;
    reply.answer
}
