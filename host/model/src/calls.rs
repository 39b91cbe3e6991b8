//! "Numbers given back": the seven calls, with the table's rows in its order.
use crate::chain::{Chain, Record};
use crate::faults::{self, Fault};
use crate::flash::carry_out;
use crate::geometry::*;
use crate::names::{name_fault, NameFault};
use crate::plan::{planned, Ask, Plan};
use crate::rules::read_settled;
use crate::space::Space;

/// What mount reports of the image it leaves: h, T, the count of live files.
#[derive(Clone, Copy, PartialEq, Eq, Debug, Default)]
pub struct Report {
    pub head: u64,
    pub tail: u64,
    pub files: u64,
}

/// A stretch of the image.
#[derive(Clone, Copy, PartialEq, Eq, Debug, Default)]
pub struct Extent {
    pub offset: u64,
    pub length: u64,
}

impl Extent {
    /// Its bytes.
    pub fn of<'a>(&self, img: &'a [u8]) -> &'a [u8] {
        &img[self.offset as usize..(self.offset + self.length) as usize]
    }
}

/// What a call answers: mount its report, sweep its finished moves, get where the
/// content stands, list where the name stands and the content's length; mount, put and
/// sweep the bytes of the image that they leave (K3); put, get and remove, beside 22, what
/// is wrong with the name (K5). All else is zero.
#[derive(Clone, Copy, PartialEq, Eq, Debug, Default)]
pub struct Reply {
    pub answer: u32,
    pub name: NameFault,
    pub report: Report,
    pub moves: u64,
    pub extent: Extent,
    pub size: u64,
    pub space: Space,
    pub steps: u64,
}

impl Reply {
    /// "zeros, image same"
    pub fn refusal(answer: u32) -> Reply {
        Reply { answer, ..Reply::default() }
    }
}

/// What a refusal gives back: the table's number, and the name's fault where that is what
/// refuses.
#[derive(Clone, Copy, PartialEq, Eq, Debug)]
pub struct Refusal {
    pub answer: u32,
    pub name: NameFault,
}

impl From<u32> for Refusal {
    fn from(answer: u32) -> Refusal {
        Refusal { answer, name: NameFault::default() }
    }
}

impl From<Refusal> for Reply {
    /// K5: "in place of zeros".
    fn from(refusal: Refusal) -> Reply {
        Reply { name: refusal.name, ..Reply::refusal(refusal.answer) }
    }
}

/// A refusal stands where a call breaks off.
fn told(r: Result<Reply, Refusal>) -> Reply {
    r.unwrap_or_else(Reply::from)
}

/// 22: "N bad, then name bad (put, get, remove)". K5: these three "pass both on beside 22",
/// the name's reason and place, "or 0 where N is bad".
pub(crate) fn accepted(img: &[u8], name: Option<&[u8]>) -> Result<(), Refusal> {
    let fault = name.map_or(NameFault::default(), name_fault);
    if !good_length(img.len() as u64) {
        let told = if faults::seeded(Fault::ReasonWhereNBad) { fault } else { NameFault::default() };
        return Err(Refusal { answer: 22, name: told });
    }
    if fault.reason == 0 {
        Ok(())
    } else {
        Err(Refusal { answer: 22, name: fault })
    }
}

/// 22, 5, 6 and 16, for the calls that want a settled image.
pub(crate) fn read(img: &[u8], name: Option<&[u8]>) -> Result<Chain, Refusal> {
    accepted(img, name)?;
    Ok(read_settled(img)?)
}

/// 2: "get, remove: no such file".
pub(crate) fn read_file(img: &[u8], name: &[u8]) -> Result<Record, Refusal> {
    read(img, Some(name))?.find_live(img, name).cloned().ok_or(Refusal::from(2))
}

/// 4: "allowance used up before the last step: steps used, and for sweep the finished
/// moves" (decision 23), or 0: "An allowance equal to the need answers 0." (decision
/// 19, 26)
fn carried(img: &mut [u8], plan: Plan, allowance: u64) -> Reply {
    let steps = carry_out(img, &plan.steps, allowance);
    let finished = plan.ends.iter().filter(|&&e| e <= steps).count() as u64;
    if steps < plan.steps.len() as u64 {
        Reply { moves: finished, steps, ..Reply::refusal(4) }
    } else {
        Reply { steps, ..plan.done }
    }
}

/// A writing call: a refusal, or its plan as far as the allowance goes.
fn written(img: &mut [u8], ask: Ask, allowance: u64) -> Reply {
    told(planned(img, ask).map(|plan| carried(img, plan, allowance)))
}

pub fn format(img: &mut [u8], allowance: u64) -> Reply {
    written(img, Ask::Format, allowance)
}

pub fn mount(img: &mut [u8], allowance: u64) -> Reply {
    written(img, Ask::Mount, allowance)
}

pub fn put(img: &mut [u8], name: &[u8], data: &[u8], allowance: u64) -> Reply {
    written(img, Ask::Put(name, data), allowance)
}

/// "there get gives offset and length"
pub fn get(img: &[u8], name: &[u8]) -> Reply {
    told(read_file(img, name).map(|r| {
        let extent = Extent { offset: r.data_at, length: r.data_len };
        Reply { extent, ..Reply::default() }
    }))
}

/// "List by index (chain order) gives name part and length." 2: "index ≥ files".
pub fn list(img: &[u8], index: u64) -> Reply {
    told(read(img, None).and_then(|c| {
        let index = usize::try_from(index).map_err(|_| Refusal::from(2))?;
        let r = c.live().nth(index).ok_or(Refusal::from(2))?;
        let extent = Extent { offset: r.at + 8, length: r.name_len };
        Ok(Reply { extent, size: r.data_len, ..Reply::default() })
    }))
}

pub fn remove(img: &mut [u8], name: &[u8], allowance: u64) -> Reply {
    written(img, Ask::Remove(name), allowance)
}

pub fn sweep(img: &mut [u8], allowance: u64) -> Reply {
    written(img, Ask::Sweep, allowance)
}
