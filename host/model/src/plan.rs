//! What a writing call would do, before its first step.
use crate::calls::{accepted, read, read_file, Refusal, Reply, Report};
use crate::flash::Step;
use crate::geometry::DELETED;
use crate::place::put_room;
use crate::repair::mount_steps;
use crate::space::{space, space_after};
use crate::sweep::sweep_steps;
use crate::write::{format_steps, put_steps, Old};

/// A writing call with its arguments.
#[derive(Clone, Copy)]
pub enum Ask<'a> {
    Format,
    Mount,
    Put(&'a [u8], &'a [u8]),
    Remove(&'a [u8]),
    Sweep,
}

/// The whole step list of a call that isn't refused.
pub struct Plan {
    pub steps: Vec<Step>,
    /// what the call gives back at answer 0, but for the steps
    pub done: Reply,
    /// of a sweep: how many steps are done at the end of each move
    pub ends: Vec<u64>,
}

impl Plan {
    fn of(steps: Vec<Step>) -> Plan {
        Plan { steps, done: Reply::default(), ends: Vec::new() }
    }
}

/// The plan of a call on this image, or its refusal.
pub fn planned(img: &[u8], ask: Ask) -> Result<Plan, Refusal> {
    match ask {
        Ask::Format => accepted(img, None).map(|()| Plan::of(format_steps(img.len() as u64))),
        Ask::Mount => plan_mount(img),
        Ask::Put(name, data) => plan_put(img, name, data),
        // "Remove: status 00, one step."
        Ask::Remove(name) => read_file(img, name).map(|r| Plan::of(vec![Step::Program(r.at + 2, DELETED)])),
        Ask::Sweep => plan_sweep(img),
    }
}

/// "Mount's success gives h, T, the count of live files (of the image it
/// leaves), steps."
fn plan_mount(img: &[u8]) -> Result<Plan, Refusal> {
    accepted(img, None)?;
    let (steps, c) = mount_steps(img)?;
    let report = Report { head: c.head, tail: c.tail, files: c.live_count() };
    let space = space(&c, img.len() as u64);
    let done = Reply { report, space, ..Reply::default() };
    Ok(Plan { done, ..Plan::of(steps) })
}

/// 28: "put: no room".
fn plan_put(img: &[u8], name: &[u8], data: &[u8]) -> Result<Plan, Refusal> {
    let c = read(img, Some(name))?;
    let placed = put_room(img, &c, name, data.len() as u64).ok_or(Refusal::from(28))?;
    let old = c.find_live(img, name).map(|r| Old { at: r.at, status: r.status });
    let steps = put_steps(old, &placed, name, data);
    let done = Reply { space: space_after(img, &steps, c.head), ..Reply::default() };
    Ok(Plan { done, ..Plan::of(steps) })
}

/// "Sweep's success gives finished moves and steps". 28: "no move made, for want of room".
fn plan_sweep(img: &[u8]) -> Result<Plan, Refusal> {
    let sweep = sweep_steps(img, read(img, None)?).ok_or(Refusal::from(28))?;
    let space = space(&sweep.left, img.len() as u64);
    let done = Reply { moves: sweep.ends.len() as u64, space, ..Reply::default() };
    Ok(Plan { done, ends: sweep.ends, ..Plan::of(sweep.steps) })
}
