//! "Writing": the step lists of put and of format.
use crate::faults::{self, Fault};
use crate::flash::Step;
use crate::geometry::*;
use crate::place::Placed;

/// The file that a put replaces or a move copies.
#[derive(Clone, Copy)]
pub struct Old {
    pub at: u64,
    pub status: u8,
}

/// The bytes, one after another from address `a` on.
fn bytes_at(a: u64, bytes: &[u8]) -> impl Iterator<Item = Step> + '_ {
    (a..).zip(bytes).map(|(a, &b)| Step::Program(a, b))
}

/// "marker bytes FA, 5A, F0"
pub fn marker_steps(at: u64) -> impl Iterator<Item = Step> {
    bytes_at(at, &[0xFA, 0x5A, WRAP_STATUS])
}

/// K14: "a name's 00 is programmed as 80 and then 00, both steps always, in a put, a
/// copy and the repair of a reserve".
pub fn name_end_steps(at: u64) -> impl Iterator<Item = Step> {
    let bytes: &[u8] = if faults::seeded(Fault::NameEndAtOnce) { &[0x00] } else { &[0x80, 0x00] };
    bytes.iter().map(move |&b| Step::Program(at, b))
}

/// "Put, step by step".
pub fn put_steps(old: Option<Old>, placed: &Placed, name: &[u8], data: &[u8]) -> Vec<Step> {
    let mut steps = Vec::new();
    // "old file FC to F8 if it is FC" (decision 20)
    if let Some(o) = old.filter(|o| o.status == COMMITTED) {
        steps.push(Step::Program(o.at + 2, MIGRATING));
    }
    // "if needed"
    if let Some(m) = placed.marker {
        steps.extend(marker_steps(m));
    }
    let at = placed.at;
    let name_len = name.len() as u64;
    // "A5, 5A; four length bytes; FE; name and 00; every data byte, FF too"
    steps.extend(bytes_at(at, &[0xA5, 0x5A]));
    steps.extend(bytes_at(at + 4, &(data.len() as u32).to_le_bytes()));
    steps.push(Step::Program(at + 2, RESERVED));
    steps.extend(bytes_at(at + 8, name));
    steps.extend(name_end_steps(at + 8 + name_len));
    steps.extend(bytes_at(at + 8 + up8(name_len + 1), data));
    // "**FC, the commit**; old file's status 00"
    steps.push(Step::Program(at + 2, COMMITTED));
    if let Some(o) = old {
        steps.push(Step::Program(o.at + 2, DELETED));
        if faults::seeded(Fault::DeletedBeforeCommit) {
            let last = steps.len() - 1;
            steps.swap(last - 1, last);
        }
    }
    steps
}

/// "Format: erase all sectors ascending, then at 0 bytes 4 to 8 to 00, byte 2 to
/// 00, byte 0 to 00, byte 1 to 5A."
pub fn format_steps(n: u64) -> Vec<Step> {
    let mut steps: Vec<Step> = (0..n / SECTOR).map(|i| Step::Erase(i * SECTOR)).collect();
    steps.extend(bytes_at(4, &[0x00; 5]));
    steps.extend([Step::Program(2, 0x00), Step::Program(0, 0x00), Step::Program(1, 0x5A)]);
    steps
}
