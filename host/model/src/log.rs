//! Every flash step done by this thread since `start`, with the byte it found.
use crate::flash::Step;
use std::cell::RefCell;

#[derive(Clone, Copy, Debug, PartialEq, Eq)]
pub struct Done {
    pub step: Step,
    /// the byte found at the step's address
    pub found: u8,
}

impl Done {
    /// "the byte listed for it has no bit set that is clear in the byte it finds"
    pub fn clears(&self) -> bool {
        match self.step {
            Step::Program(_, byte) => byte & !self.found == 0,
            Step::Erase(_) => true,
        }
    }
}

thread_local!(static LOG: RefCell<Option<Vec<Done>>> = const { RefCell::new(None) });

pub fn start() {
    LOG.with(|l| *l.borrow_mut() = Some(Vec::new()));
}

/// What was logged; logging ends.
pub fn take() -> Vec<Done> {
    LOG.with(|l| l.borrow_mut().take().unwrap_or_default())
}

pub(crate) fn add(step: Step, found: u8) {
    LOG.with(|l| {
        if let Some(v) = l.borrow_mut().as_mut() {
            v.push(Done { step, found });
        }
    });
}
