//! Request K1: "a second engine that reads the image before the first step, changes
//! nothing, and hands out the steps .. into lent slices of numbers".
use crate::calls::{Refusal, Reply};
use crate::faults::{self, Fault};
use crate::flash::Step;
use crate::plan::{planned, Ask, Plan};
use std::borrow::Cow;

/// What the engine gives back beside the slices.
#[derive(Clone, Copy, PartialEq, Eq, Debug)]
pub struct Handing {
    /// "It answers as the direct call with enough allowance does": its numbers, the count
    /// of all its steps among them
    pub reply: Reply,
    /// "how many steps it handed out"
    pub handed: u64,
}

/// "(kind, 1 program or 2 erase; address; byte, FF for an erase)"
pub fn numbers(step: Step) -> [u32; 3] {
    let erased = if faults::seeded(Fault::EraseAs00) { 0x00 } else { 0xFF };
    match step {
        Step::Program(a, b) => [1, a as u32, u32::from(b)],
        Step::Erase(a) => [2, a as u32, erased],
    }
}

/// Hands the steps of a plan out into the kinds, addresses and bytes, "as many as fit the
/// shortest, from a given step number (0 the first) on". "Slots of a lent slice that get
/// nothing stay as they were."
pub fn hand_out(plan: &Result<Plan, Refusal>, first: u64, slices: [&mut [u32]; 3]) -> Handing {
    let plan = match plan {
        Ok(plan) => plan,
        Err(refusal) => return refused(*refusal, slices),
    };
    let steps = listed(&plan.steps);
    let count = steps.len() as u64;
    let shortest = slices.iter().map(|s| s.len() as u64).min().unwrap_or(0);
    let first = begun(first, count);
    let handed = shortest.min(count - first);
    for (column, slice) in slices.into_iter().enumerate() {
        let alone = faults::seeded(Fault::SlicesAlone);
        let most = if alone { count - first } else { handed };
        let window = &steps[first as usize..(first + most) as usize];
        for (slot, &step) in slice.iter_mut().zip(window) {
            *slot = numbers(step)[column];
        }
        if faults::seeded(Fault::SlotsCleared) {
            slice[handed as usize..].fill(0);
        }
    }
    let told = if faults::seeded(Fault::WindowCounted) { handed } else { count };
    Handing { reply: Reply { steps: told, ..plan.done }, handed }
}

/// The engine on an image. K1 asks for it "for put, remove, sweep and mount".
pub fn plan_out(img: &[u8], ask: Ask, first: u64, slices: [&mut [u32]; 3]) -> Handing {
    hand_out(&planned(img, ask), first, slices)
}

/// A refusal hands nothing out; a name's fault (K5) is given as the direct call gives it.
fn refused(refusal: Refusal, slices: [&mut [u32]; 3]) -> Handing {
    if faults::seeded(Fault::RefusalClears) {
        slices.into_iter().for_each(|slice| slice.fill(0));
    }
    let unnamed = faults::seeded(Fault::PlanWithoutReason);
    let reply = if unnamed { Reply::refusal(refusal.answer) } else { Reply::from(refusal) };
    Handing { reply, handed: 0 }
}

/// Where the window begins: at the end if the start is past it.
fn begun(first: u64, count: u64) -> u64 {
    if faults::seeded(Fault::WindowTooFar) && first > 0 {
        first.saturating_add(1).min(count)
    } else if faults::seeded(Fault::EndAgain) && first > count {
        count.saturating_sub(1)
    } else {
        first.min(count)
    }
}

/// The steps as they are listed; wrong ones with a fault.
fn listed(steps: &[Step]) -> Cow<'_, [Step]> {
    let mut list = Cow::from(steps);
    if faults::seeded(Fault::StepLeftOut) && steps.len() > 1 {
        list.to_mut().remove(steps.len() / 2);
    }
    let bytes = |w: &[Step]| matches!(w, [Step::Program(_, 0xFA), Step::Program(_, 0x5A), Step::Program(_, 0xF0)]);
    let marker = steps.windows(3).position(bytes).filter(|_| faults::seeded(Fault::MarkerLate));
    if let Some(at) = marker {
        list.to_mut()[at..].rotate_left(3);
    }
    list
}

impl Fault {
    /// The faults of a planner; the direct calls are right.
    pub const PLANNER: [Fault; 10] = [
        Fault::StepLeftOut,
        Fault::MarkerLate,
        Fault::EraseAs00,
        Fault::WindowTooFar,
        Fault::EndAgain,
        Fault::SlicesAlone,
        Fault::SlotsCleared,
        Fault::RefusalClears,
        Fault::WindowCounted,
        Fault::PlanWithoutReason,
    ];
}
