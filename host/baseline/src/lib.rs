//! The calls of the C baseline (folder c).

testing::c_library!(baseline_format baseline_mount baseline_put baseline_get baseline_list baseline_remove baseline_sweep);

extern "C" {
    fn baseline_scan(image: *const u8, length: usize) -> bool;
}

/// Whether all is FF, eight bytes at a time up to the end.
pub fn scan(img: &[u8]) -> bool {
    // Safety: a slice's pointer and its length; nothing is written.
    unsafe { baseline_scan(img.as_ptr(), img.len()) }
}
