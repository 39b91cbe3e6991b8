//! Document 02, K9: the most flash steps of each call, as the definitions in crate spec
//! say them (Bounds).
use crate::call::Call;
use model::rules::read_settled;
use model::{read_image, Reply, Step, SECTOR};

/// "mount takes at most N/8 + N/4,096 + 8 steps", behind any history.
pub fn mount_most(n: u64) -> u64 {
    n / 8 + n / SECTOR + 8
}

/// The same by the d data bytes of the head's record: only these are cleaned of marks.
pub fn mount_by_head(n: u64, d: u64) -> u64 {
    d.div_ceil(8) + n / SECTOR + 9
}

/// A put takes "at most n + d + 14" steps, 15 with K14.
pub fn put_most(name: &[u8], data: &[u8]) -> u64 {
    (name.len() + data.len()) as u64 + 15
}

/// Format's steps, exactly.
pub fn format_count(n: u64) -> u64 {
    n / SECTOR + 8
}

/// Five moves, each of them a copy, the marks of a record and its sectors.
pub fn sweep_most(n: u64) -> u64 {
    5 * (n + n / 8 + n / SECTOR + 8)
}

/// Put's steps, "exact by case", where the commit has this place: the commit is the last
/// step, but for the status 00 of an old file.
pub fn put_count(img: &[u8], name: &[u8], commit: u64) -> u64 {
    let replaces = read_settled(img).is_ok_and(|c| c.find_live(img, name).is_some());
    commit + replaces as u64
}

/// A call on this image gave this reply: its steps are held to the bounds. `commit` is
/// the place of a put's commit.
pub fn check(img: &[u8], call: &Call, commit: Option<u64>, reply: &Reply) -> Result<(), String> {
    let (n, steps) = (img.len() as u64, reply.steps);
    let kept = match (call, reply.answer) {
        (Call::Mount(_), _) => steps <= mount_most(n) && within_head(img, steps),
        (Call::Put(name, data, _), answer @ (0 | 4)) => {
            let count = put_count(img, name, commit.ok_or("a put without a commit")?);
            count <= put_most(name, data) && if answer == 0 { steps == count } else { steps < count }
        }
        (Call::Remove(..), answer) => steps == (answer == 0) as u64,
        (Call::Format(_), 0) => steps == format_count(n),
        (Call::Format(_), _) => steps < format_count(n),
        (Call::Sweep(_), _) => steps <= sweep_most(n),
        _ => steps == 0,
    };
    if kept {
        Ok(())
    } else {
        Err(format!("{} answers {} after {steps} steps: not its number of steps", call.kind(), reply.answer))
    }
}

/// Where a head without data is enough for so many steps it is not looked at.
fn within_head(img: &[u8], steps: u64) -> bool {
    let bound = |d| mount_by_head(img.len() as u64, d);
    steps <= bound(0) || read_image(img).is_ok_and(|c| steps <= bound(c.records[0].data_len))
}

/// The two kinds of step apart, since an erase takes longer: the most bytes that a call
/// programs in an image of n bytes, and the most sectors that it erases.
pub fn most_of_each(n: u64, call: &Call) -> (u64, u64) {
    let sectors = n / SECTOR;
    match call {
        Call::Mount(_) => (n / 8 + 8, sectors),
        Call::Put(name, data, _) => (put_most(name, data), 0),
        Call::Remove(..) => (1, 0),
        Call::Format(_) => (8, sectors),
        Call::Sweep(_) => (5 * (n + n / 8 + 8), 5 * sectors),
        Call::Get(_) | Call::List(_) => (0, 0),
    }
}

/// These steps of a call are held to that.
pub fn check_each(n: usize, call: &Call, done: &[Step]) -> Result<(), String> {
    let (programs, erases) = most_of_each(n as u64, call);
    let erased = done.iter().filter(|s| matches!(s, Step::Erase(_))).count() as u64;
    let programmed = done.len() as u64 - erased;
    if programmed <= programs && erased <= erases {
        Ok(())
    } else {
        Err(format!("{}: {programmed} bytes programmed, {erased} sectors erased", call.kind()))
    }
}
