//! "What mount repairs, in this order".
use crate::chain::{read_chain, Chain, Record};
use crate::faults::{self, Fault};
use crate::flash::{Draft, Step};
use crate::geometry::*;
use crate::rules::{read_image, settled};
use crate::sweep::{close, to_start};
use crate::write::{marker_steps, name_end_steps};

/// Repair 1, "Head CLEAN: erase each sector wholly in the free run that isn't all FF,
/// ascending; then head's low byte to 00", by way of 80. By address (decision 16).
fn repair_1(d: &mut Draft, c: &Chain) {
    if magic(&d.img, c.head) != CLEAN {
        return;
    }
    for (from, to) in c.free_run(d.img.len() as u64) {
        let mut a = floor(from + SECTOR - 1);
        while a + SECTOR <= to {
            if !blank(&d.img, a, a + SECTOR) {
                d.erase(a);
            }
            a += SECTOR;
        }
    }
    to_start(d, c.head);
}

/// Repair 2, "Head START, next record CLEAN: steps (c) to (f) of a move. Next START:
/// head's second byte to 00." Gives the head it leaves.
fn repair_2(d: &mut Draft, c: &Chain) -> u64 {
    let Some(y) = c.records.get(1).filter(|y| y.marked()) else { return c.head };
    let x = &c.records[0];
    if y.magic == CLEAN {
        close(d, x, y);
    } else {
        d.program(x.at + 1, 0x00);
    }
    y.at
}

/// K14: "A reserve or torn record is voided by clearing the status's top bit alone
/// first", at the status's place in the order: 7F or 7E, then 00.
fn void(d: &mut Draft, r: &Record) {
    if !faults::seeded(Fault::VoidedAtOnce) {
        d.program(r.at + 2, r.status & 0x7F);
    }
    d.program(r.at + 2, DELETED);
}

/// "Torn: second byte 5A, four length bytes 00, byte 8 to 00, status 00 (.. always
/// all)." (decision 17) K14, of a torn first byte: "its repair programs that byte
/// first, always"; so 9 steps. "Reserved: the missing 00 if any, status 00."
fn finish(d: &mut Draft, r: &Record) {
    if r.torn {
        if !faults::seeded(Fault::TornFirstLeft) {
            d.program(r.at, 0xA5);
        }
        d.program(r.at + 1, 0x5A);
        for i in 4..=8 {
            d.program(r.at + i, 0x00);
        }
    } else if let Some(a) = r.missing {
        d.extend(name_end_steps(a));
    }
    void(d, r);
}

/// Repair 3, the last thing in the chain. "Torn wrap: 5A, F0"; K14: the first byte
/// before them, always. So a torn wrap gets all three steps of its marker.
fn repair_3(d: &mut Draft, c: &Chain) {
    if let Some(w) = c.torn_wrap {
        let left = faults::seeded(Fault::TornFirstLeft) as usize;
        d.extend(marker_steps(w).skip(left));
    }
    if let Some(r) = c.records.last().filter(|r| r.unfinished()) {
        finish(d, r);
    }
}

/// Repair 4, "Each F8 record with an FC record of its name: status 00, in chain order."
fn repair_4(d: &mut Draft, c: &Chain) {
    for &i in &c.superseded {
        d.program(c.records[i].at + 2, DELETED);
    }
}

/// The step list of a mount, and the chain of the image that it leaves (decision
/// 15). "Each repair reads the image that those before it left, on from the head
/// they left, with no new search; so mount refuses before its first step or not
/// at all."
pub fn mount_steps(img: &[u8]) -> Result<(Vec<Step>, Chain), u32> {
    let c = read_image(img)?;
    if settled(img, &c) {
        return Ok((Vec::new(), c));
    }
    let mut d = Draft::new(img);
    let reread = |d: &Draft, h: u64| read_chain(&d.img, h).expect("a repair leaves a legal chain");
    repair_1(&mut d, &c);
    let c = reread(&d, c.head);
    let head = repair_2(&mut d, &c);
    let c = reread(&d, head);
    repair_3(&mut d, &c);
    let c = reread(&d, head);
    repair_4(&mut d, &c);
    let c = reread(&d, head);
    Ok((d.steps, c))
}
