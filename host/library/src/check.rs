//! The check of an image (K13), by liblilota.a.
use model::{Rule, Verdict};
use std::ptr;

extern "C" {
    fn lilota_check(image: *const u8, length: usize, verdict: *mut u32, number: *mut u32, address: *mut usize) -> u32;
}

/// What the library says of the image: its answer where that is not 0. Numbers that mean nothing are told as a panic.
pub fn check(img: &[u8]) -> Result<Verdict, u32> {
    let (mut verdict, mut number, mut address) = (u32::MAX, u32::MAX, usize::MAX);
    let image = if img.is_empty() { ptr::null() } else { img.as_ptr() };
    // Safety: the pointer comes with the length of the slice that it is of, or is null with length 0.
    let answer = unsafe { lilota_check(image, img.len(), &mut verdict, &mut number, &mut address) };
    match (answer, verdict, number, address) {
        (0, 0, 0, 0) => Ok(Verdict::Settled),
        (0, 1, number, 0) => Ok(Verdict::Recovery(number)),
        (0, 2, number @ 1..=7, at) => Ok(Verdict::Broken(Rule::ALL[number as usize - 1], at as u64)),
        (22, 0, 0, 0) => Err(22),
        numbers => panic!("answer, verdict, number and address {numbers:?}"),
    }
}
