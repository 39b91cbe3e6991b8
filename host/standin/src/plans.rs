//! The planning calls (K1) of the stand-in: the model's planner under the C names.
use crate::{fault, give_name, give_space, slice, slice_mut, TRIPPED};
use model::faults;
use model::{plan_out, Ask, Handing, Reply};
use std::panic::{catch_unwind, AssertUnwindSafe};

/// One lent slice: its first slot and its length.
type Slots = (*mut u32, usize);

/// # Safety
/// As include/lilota.h says.
unsafe fn run(image: &[u8], ask: Ask, first: usize, slices: [Slots; 3]) -> Handing {
    let slices = slices.map(|(at, length)| slice_mut(at, length));
    let plan = || plan_out(image, ask, first as u64, slices);
    let seeded = || match fault() {
        Some(f) => faults::with(f, plan),
        None => plan(),
    };
    let tripped = Handing { reply: Reply::refusal(TRIPPED), handed: 0 };
    catch_unwind(AssertUnwindSafe(seeded)).unwrap_or(tripped)
}

/// # Safety
/// As include/lilota.h says.
#[no_mangle]
pub unsafe extern "C" fn lilota_plan_put(
    image: *const u8,
    length: usize,
    name: *const u8,
    name_length: usize,
    content: *const u8,
    content_length: usize,
    first: usize,
    kinds: *mut u32,
    kinds_length: usize,
    addresses: *mut u32,
    addresses_length: usize,
    bytes: *mut u32,
    bytes_length: usize,
    handed: *mut usize,
    reason: *mut u32,
    place: *mut usize,
    live: *mut usize,
    dead: *mut usize,
    free: *mut usize,
    lost: *mut usize,
    steps: *mut usize,
) -> u32 {
    let slices = [(kinds, kinds_length), (addresses, addresses_length), (bytes, bytes_length)];
    let ask = Ask::Put(slice(name, name_length), slice(content, content_length));
    let told = run(slice(image, length), ask, first, slices);
    *handed = told.handed as usize;
    give_name(told.reply.name, reason, place);
    give_space(told.reply.space, [live, dead, free, lost]);
    *steps = told.reply.steps as usize;
    told.reply.answer
}

/// # Safety
/// As include/lilota.h says.
#[no_mangle]
pub unsafe extern "C" fn lilota_plan_remove(
    image: *const u8,
    length: usize,
    name: *const u8,
    name_length: usize,
    first: usize,
    kinds: *mut u32,
    kinds_length: usize,
    addresses: *mut u32,
    addresses_length: usize,
    bytes: *mut u32,
    bytes_length: usize,
    handed: *mut usize,
    reason: *mut u32,
    place: *mut usize,
    steps: *mut usize,
) -> u32 {
    let slices = [(kinds, kinds_length), (addresses, addresses_length), (bytes, bytes_length)];
    let told = run(slice(image, length), Ask::Remove(slice(name, name_length)), first, slices);
    *handed = told.handed as usize;
    give_name(told.reply.name, reason, place);
    *steps = told.reply.steps as usize;
    told.reply.answer
}

/// # Safety
/// As include/lilota.h says.
#[no_mangle]
pub unsafe extern "C" fn lilota_plan_sweep(
    image: *const u8,
    length: usize,
    first: usize,
    kinds: *mut u32,
    kinds_length: usize,
    addresses: *mut u32,
    addresses_length: usize,
    bytes: *mut u32,
    bytes_length: usize,
    handed: *mut usize,
    moves: *mut usize,
    live: *mut usize,
    dead: *mut usize,
    free: *mut usize,
    lost: *mut usize,
    steps: *mut usize,
) -> u32 {
    let slices = [(kinds, kinds_length), (addresses, addresses_length), (bytes, bytes_length)];
    let told = run(slice(image, length), Ask::Sweep, first, slices);
    *handed = told.handed as usize;
    *moves = told.reply.moves as usize;
    give_space(told.reply.space, [live, dead, free, lost]);
    *steps = told.reply.steps as usize;
    told.reply.answer
}

/// # Safety
/// As include/lilota.h says.
#[no_mangle]
pub unsafe extern "C" fn lilota_plan_mount(
    image: *const u8,
    length: usize,
    first: usize,
    kinds: *mut u32,
    kinds_length: usize,
    addresses: *mut u32,
    addresses_length: usize,
    bytes: *mut u32,
    bytes_length: usize,
    handed: *mut usize,
    head: *mut usize,
    tail: *mut usize,
    files: *mut usize,
    live: *mut usize,
    dead: *mut usize,
    free: *mut usize,
    lost: *mut usize,
    steps: *mut usize,
) -> u32 {
    let slices = [(kinds, kinds_length), (addresses, addresses_length), (bytes, bytes_length)];
    let told = run(slice(image, length), Ask::Mount, first, slices);
    *handed = told.handed as usize;
    *head = told.reply.report.head as usize;
    *tail = told.reply.report.tail as usize;
    *files = told.reply.report.files as usize;
    give_space(told.reply.space, [live, dead, free, lost]);
    *steps = told.reply.steps as usize;
    told.reply.answer
}
