//! "Geometry and record".
use crate::faults::{self, Fault};

/// "A sector is 4,096 bytes"
#[cfg(not(feature = "tiny"))]
pub const SECTOR: u64 = 4096;
/// Sectors of 64 bytes, for the small-scope search alone.
#[cfg(feature = "tiny")]
pub const SECTOR: u64 = 64;

/// "Magic: record 5AA5, wrap marker 5AFA (8 bytes, no name), START 5A00, CLEAN 5AA0."
pub const RECORD: u16 = 0x5AA5;
pub const WRAP: u16 = 0x5AFA;
pub const START: u16 = 0x5A00;
pub const CLEAN: u16 = 0x5AA0;

/// "FF erased, FE reserved, FC committed, F8 migrating, F0 wrap, E0 wear, 00 deleted"
pub const ERASED: u8 = 0xFF;
pub const RESERVED: u8 = 0xFE;
pub const COMMITTED: u8 = 0xFC;
pub const MIGRATING: u8 = 0xF8;
pub const WRAP_STATUS: u8 = 0xF0;
pub const WEAR: u8 = 0xE0;
pub const DELETED: u8 = 0x00;

/// "Image length N: a multiple of 4,096, from 8,192 to 16,777,216."
pub fn good_length(n: u64) -> bool {
    n.is_multiple_of(SECTOR) && (2 * SECTOR..=16_777_216).contains(&n)
}

/// "floor(a) is the start of a's sector"
pub fn floor(a: u64) -> u64 {
    a - a % SECTOR
}

/// "up8 rounds up to a multiple of 8"
pub fn up8(a: u64) -> u64 {
    a.saturating_add(7) / 8 * 8
}

/// "Size = 8 + up8(n+1) + up8(d), for a name of n bytes and d data bytes."
/// Saturates: a length that overflows never fits (decision 25).
pub fn size_of(name_len: u64, data_len: u64) -> u64 {
    (8 + up8(name_len + 1)).saturating_add(up8(data_len))
}

pub fn byte(img: &[u8], a: u64) -> u8 {
    img[a as usize]
}

/// "Header, 8 bytes: magic (2), status (1), reserved (1, always FF), data_len (4)."
/// "Numbers are little endian." K14: "low magic byte 80 counts as CLEAN, A4 and A1
/// count as A5": the bytes between A0 and 00, and between A5 and A0.
pub fn magic(img: &[u8], a: u64) -> u16 {
    match u16::from_le_bytes([byte(img, a), byte(img, a + 1)]) {
        0x5A80 if !faults::seeded(Fault::Low80NotClean) => CLEAN,
        0x5AA4 if !faults::seeded(Fault::LowA4NotRecord) => RECORD,
        0x5AA1 if !faults::seeded(Fault::LowA1NotRecord) => RECORD,
        other => other,
    }
}

pub fn status(img: &[u8], a: u64) -> u8 {
    byte(img, a + 2)
}

pub fn data_len(img: &[u8], a: u64) -> u64 {
    let b = |i| byte(img, a + i);
    u32::from_le_bytes([b(4), b(5), b(6), b(7)]) as u64
}

/// The bytes are all FF. Eight at a time, since images may have 16 MiB.
pub fn all_ff(bytes: &[u8]) -> bool {
    let mut words = bytes.chunks_exact(8);
    words.by_ref().all(|w| w == [0xFF; 8]) && words.remainder().iter().all(|&b| b == 0xFF)
}

/// The stretch [from, to) is all FF; an empty one is.
pub fn blank(img: &[u8], from: u64, to: u64) -> bool {
    from >= to || all_ff(&img[from as usize..to as usize])
}

/// "00 5A, A0 5A or A5 5A": what step (c) of a move cleans away. K14: 80, A4 and A1,
/// "all three are cleaned from old data as those are".
pub fn mark(img: &[u8], a: u64) -> bool {
    let kept = match byte(img, a) {
        0x80 => faults::seeded(Fault::Mark80Kept),
        0xA4 => faults::seeded(Fault::MarkA4Kept),
        0xA1 => faults::seeded(Fault::MarkA1Kept),
        _ => magic(img, a) == RECORD && faults::seeded(Fault::RecordMarkKept),
    };
    !kept && matches!(magic(img, a), START | CLEAN | RECORD)
}

/// A name as it stands in a record.
#[derive(Clone, Copy, Debug)]
pub struct Name {
    pub len: u64,
    /// the byte of 80 or more that counts as the 00, in a reserved record
    pub missing: Option<u64>,
}

/// The end of the name of the record at `at`: the first 00 "in the 64 bytes
/// from its byte 8 (cut off at N)" (decision 12). K14: "a reserved name with a byte
/// of 80 or more (FF too) before any 00 takes the first such byte as its 00".
pub fn name_end(img: &[u8], at: u64) -> Option<Name> {
    let from = at + 8;
    let to = (from + 64).min(img.len() as u64);
    let reserved = status(img, at) == RESERVED;
    let high = if faults::seeded(Fault::NameEndsAtFfOnly) { 0xFF } else { 0x80 };
    (from..to).find_map(|a| match byte(img, a) {
        0x00 => Some(Name { len: a - from, missing: None }),
        b if reserved && b >= high => Some(Name { len: a - from, missing: Some(a) }),
        _ => None,
    })
}
