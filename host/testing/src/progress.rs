//! K6's promise: "In a history of demand 3, after any put with answer 0 that leaves r
//! records beginning in the head's sector, r/5 uncut plain sweeps (rounded up) with
//! nothing between them get past all of these, without 28." To get past them is to
//! finish r moves (decision 56).
use crate::call::{Call, Store};
use crate::ALL;
use model::faults::{self, Fault};
use model::*;
use std::fmt;

/// The moves of a sweep, at most.
const MOVES: u64 = 5;

/// The promise, tried on copies of what puts left.
#[derive(Default)]
pub struct Progress {
    /// puts with answer 0, each followed by its sweeps
    pub puts: u64,
    pub sweeps: u64,
    /// the most records that such a put left in the head's sector
    pub most: u64,
    /// puts refused with 28 that 01's rule would have taken
    pub refused: u64,
}

impl fmt::Display for Progress {
    fn fmt(&self, f: &mut fmt::Formatter) -> fmt::Result {
        let Progress { puts, sweeps, most, refused } = self;
        writeln!(f, "{refused} puts refused that 01's rule takes")?;
        write!(f, "{puts} puts with their {sweeps} sweeps, past up to {most} records of the head's sector: none stuck")
    }
}

impl Progress {
    /// A call of a history that was answered so and left this image.
    pub fn look(&mut self, store: &impl Store, call: &Call, reply: &Reply, img: &[u8]) -> Result<(), String> {
        let Call::Put(name, data, _) = call else { return Ok(()) };
        match reply.answer {
            0 => {
                let (r, sweeps) = gets_past(store, img)?;
                keeps_room(img)?;
                self.puts += 1;
                self.sweeps += sweeps;
                self.most = self.most.max(r);
            }
            28 => self.refused += taken_by_01(img, name, data) as u64,
            _ => {}
        }
        Ok(())
    }
}

/// The reading of what a put with answer 0 left.
fn read(img: &[u8]) -> Result<Chain, String> {
    rules::read_settled(img).map_err(|answer| format!("a put left an image with refusal {answer}"))
}

/// The sweeps one after the other, each with an allowance that it can't use up. Gives how
/// many records there were to pass, and how many sweeps that took.
pub fn gets_past(store: &impl Store, img: &[u8]) -> Result<(u64, u64), String> {
    let c = read(img)?;
    let r = c.records.iter().filter(|x| c.in_head_sector(x.at)).count() as u64;
    let sweeps = r.div_ceil(MOVES);
    let mut swept = img.to_vec();
    let mut moves = 0;
    for i in 1..=sweeps {
        let reply = store.call(&mut swept, &Call::Sweep(ALL))?;
        if reply.answer != 0 {
            return Err(format!("{r} records to pass: sweep {i} answers {}", reply.answer));
        }
        moves += reply.moves;
    }
    if moves < r {
        return Err(format!("{r} records to pass: {sweeps} sweeps make {moves} moves"));
    }
    Ok((r, sweeps))
}

/// The rule once more, on what the put left: "all live records that begin in the head's
/// sector .. fit one after another in chain order; then two of the largest". The promise
/// rests on the first part alone.
fn keeps_room(img: &[u8]) -> Result<(), String> {
    let c = read(img)?;
    let largest = c.live().map(|x| x.size).max().ok_or("a put left no file")?;
    let there = c.live().filter(|x| c.in_head_sector(x.at)).map(|x| x.size);
    let sizes: Vec<u64> = there.chain([largest, largest]).collect();
    if !c.place(img.len() as u64).fit_all(&sizes) {
        return Err("a put left too little room behind it".into());
    }
    Ok(())
}

/// Whether 01's rule, two of the largest alone, has room for this put.
fn taken_by_01(img: &[u8], name: &[u8], data: &[u8]) -> bool {
    let has_room = |c: Chain| put_room(img, &c, name, data.len() as u64).is_some();
    faults::with(Fault::RoomAsIn01, || rules::read_settled(img).is_ok_and(has_room))
}
