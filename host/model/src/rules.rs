//! The rest of "Free run" and "Refusal 5", and the reading of a whole image.
use crate::chain::{read_chain, Chain, Record};
use crate::geometry::*;
use crate::head::find_head;

/// No "second record START in another sector, CLEAN or START further on, or
/// second CLEAN or START while the first record is live". The sector is the
/// head's, of a CLEAN head too (decision 10, 11).
pub fn marks_legal(c: &Chain) -> bool {
    let mut later = c.records.iter().skip(1);
    let second = later.next().filter(|r| r.marked());
    let second_legal = second.is_none_or(|r| !c.records[0].live && (r.magic == CLEAN || c.in_head_sector(r.at)));
    second_legal && !later.any(Record::marked)
}

/// "It must be FF, but if the head is CLEAN, only T's own sector (from T) must":
/// that sector cut with the free run (decision 13, 14).
pub fn free_run_legal(img: &[u8], c: &Chain) -> bool {
    let n = img.len() as u64;
    if magic(img, c.head) == CLEAN {
        let end = if c.turned { floor(c.head) } else { n };
        blank(img, c.tail, (floor(c.tail) + SECTOR).min(end))
    } else {
        c.free_run(n).iter().all(|&(from, to)| blank(img, from, to))
    }
}

/// Head and chain, or refusal 5 or 6.
pub fn read_image(img: &[u8]) -> Result<Chain, u32> {
    read_chain(img, find_head(img)?)
}

/// "An image is *settled* if mount accepts it and has no step to do."
pub fn settled(img: &[u8], c: &Chain) -> bool {
    magic(img, c.head) == START
        && !c.records.get(1).is_some_and(Record::marked)
        && c.torn_wrap.is_none()
        && !c.records.last().is_some_and(Record::unfinished)
        && c.superseded.is_empty()
}

/// The reading, or row 5, 6 or 16 of the table.
pub fn read_settled(img: &[u8]) -> Result<Chain, u32> {
    let c = read_image(img)?;
    if settled(img, &c) {
        Ok(c)
    } else {
        Err(16)
    }
}
