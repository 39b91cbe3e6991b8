//! Flash steps: "Every change to the image goes through two functions, one that
//! programs one byte and one that erases one sector".
use crate::faults::{self, Fault};
use crate::geometry::SECTOR;
use crate::log;

#[derive(Clone, Copy, PartialEq, Eq, Debug)]
pub enum Step {
    /// program one byte: address, byte
    Program(u64, u8),
    /// erase the sector that starts at this address
    Erase(u64),
}

/// One step on an image. Nothing else in the model writes one.
fn apply(img: &mut [u8], step: Step) {
    match step {
        Step::Program(a, b) => img[a as usize] = b,
        Step::Erase(a) => img[a as usize..(a + SECTOR) as usize].fill(0xFF),
    }
}

/// "A call cut after k steps stands as that call with allowance k": the first
/// `allowance` steps of a list are done. Gives their number.
pub fn carry_out(img: &mut [u8], steps: &[Step], allowance: u64) -> u64 {
    let done = allowance.min(steps.len() as u64);
    for &step in &steps[..done as usize] {
        let (Step::Program(a, _) | Step::Erase(a)) = step;
        log::add(step, img[a as usize]);
        apply(img, step);
    }
    done
}

/// K14, "a cut may fall inside a program step; erase stays atomic": "any subset of the
/// bits that its next program step would clear may be clear". `left` are the steps
/// that a cut call has left undone, `held` is what the byte of the first of them then
/// holds: without effect if that step erases, or if `held` is no such byte.
pub fn cut_inside(img: &mut [u8], left: &[Step], held: u8) {
    let next = match left {
        [Step::Erase(_), ..] if faults::seeded(Fault::CutPastErase) => {
            left.iter().find(|s| matches!(s, Step::Program(..)))
        }
        _ => left.first(),
    };
    let Some(&Step::Program(a, listed)) = next else { return };
    let found = img[a as usize];
    if held & listed == listed && held & found == held {
        apply(img, Step::Program(a, held));
    }
}

/// A copy of the image on which a step list is worked out: later steps may
/// depend on bytes that earlier ones wrote.
pub struct Draft {
    pub img: Vec<u8>,
    pub steps: Vec<Step>,
}

impl Draft {
    pub fn new(img: &[u8]) -> Draft {
        Draft { img: img.to_vec(), steps: Vec::new() }
    }

    pub fn add(&mut self, step: Step) {
        apply(&mut self.img, step);
        self.steps.push(step);
    }

    pub fn extend(&mut self, steps: impl IntoIterator<Item = Step>) {
        steps.into_iter().for_each(|step| self.add(step));
    }

    pub fn program(&mut self, a: u64, b: u8) {
        self.add(Step::Program(a, b));
    }

    pub fn erase(&mut self, a: u64) {
        self.add(Step::Erase(a));
    }
}
