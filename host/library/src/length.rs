//! A file's length (K8), by liblilota.a.
use model::{NameFault, Reply};
use std::ptr;
use testing::c_calls::UNWRITTEN_REASON;

extern "C" {
    fn lilota_length(
        image: *const u8,
        length: usize,
        head: usize,
        name: *const u8,
        name_length: usize,
        reason: *mut u32,
        place: *mut usize,
        size: *mut usize,
    ) -> u32;
}

fn pointer(bytes: &[u8]) -> *const u8 {
    if bytes.is_empty() {
        ptr::null()
    } else {
        bytes.as_ptr()
    }
}

/// The library's answer with the numbers that it gave back.
pub fn length(img: &[u8], head: u64, name: &[u8]) -> Reply {
    let (mut reason, mut place, mut size) = (UNWRITTEN_REASON, usize::MAX, usize::MAX);
    let head = usize::try_from(head).unwrap_or(usize::MAX);
    // Safety: each pointer comes with the length of the slice that it is of, or is null with length 0.
    let answer = unsafe {
        let (at, n, to) = (pointer(img), img.len(), pointer(name));
        lilota_length(at, n, head, to, name.len(), &mut reason, &mut place, &mut size)
    };
    let name = NameFault { reason, place: place as u64 };
    Reply { answer, name, size: size as u64, ..Reply::default() }
}

/// The length alone, for a clock.
pub fn length_alone(img: &[u8], head: u64, name: &[u8]) -> u64 {
    length(img, head, name).size
}
