//! "Reading an image": the head h.
use crate::faults::{self, Fault};
use crate::geometry::*;
use crate::torn::torn_shape;

/// The next place of the walk, if something at `p` is stepped over: "A reserved
/// record is stepped over by its finished size; a record of status FF, or with
/// no end to its name, or ending past N, is no record here; any other status is
/// stepped over." Neither the reserved byte nor the status is judged (decision 2).
fn walk_over(img: &[u8], p: u64) -> Option<u64> {
    let clean_at_0 = magic(img, p) == CLEAN && p == 0 && !faults::seeded(Fault::CleanNotWalked);
    if status(img, p) == ERASED || !(magic(img, p) == RECORD || clean_at_0) {
        return None;
    }
    if status(img, p) == RESERVED && faults::seeded(Fault::ReservedNotWalked) {
        return None;
    }
    let end = p + size_of(name_end(img, p)?.len, data_len(img, p));
    (end <= img.len() as u64).then_some(end)
}

/// "Otherwise walk from 0 over 5AA5 records (5AA0 also, at 0 only), to the first
/// place that is no record, is torn, or has START." Gives that place, and where
/// the search begins: "From there (8 further if torn)" (decision 1).
pub fn walk(img: &[u8]) -> (u64, u64) {
    let n = img.len() as u64;
    let mut p = 0;
    while p < n {
        if torn_shape(img, p) {
            let over = if faults::seeded(Fault::TornByLength) { 16 + up8(data_len(img, p)) } else { 8 };
            return (p, p.saturating_add(over).min(n));
        }
        let Some(end) = walk_over(img, p) else { return (p, p) };
        p = end;
    }
    (p, p)
}

/// "search the 8-byte boundaries and stop at the first START or CLEAN; the
/// search yields its address"
fn search(img: &[u8], from: u64) -> Option<u64> {
    (from..img.len() as u64).step_by(8).find(|&a| matches!(magic(img, a), START | CLEAN))
}

/// The head, or refusal 5 or 6. Only the two magic bytes at 0 say whether "the
/// record at 0" is START, a wrap marker or CLEAN (decision 3, 4, 5).
pub fn find_head(img: &[u8]) -> Result<u64, u32> {
    match magic(img, 0) {
        // "Bytes 00 5A at 0: h = 0."
        START => return Ok(0),
        // "Wrap magic 5AFA at 0: refusal 5."
        WRAP => return Err(5),
        _ => {}
    }
    let from = if faults::seeded(Fault::FirstStartIsHead) { 0 } else { walk(img).1 };
    let clean_at_0 = magic(img, 0) == CLEAN;
    match search(img, from) {
        // "START is the head."
        Some(a) if magic(img, a) == START => Ok(a),
        // "CLEAN is the head if the record at 0 isn't CLEAN, else refusal 5."
        Some(_) if clean_at_0 => Err(5),
        Some(a) => Ok(a),
        // "With none found, a CLEAN at 0 is the head; otherwise refusal 6."
        None if clean_at_0 => Ok(0),
        None => Err(6),
    }
}
