//! A call with its arguments, and what carries it out.
use crate::rng::Rng;
use crate::ALL;
use model::faults::{self, Fault};
use model::{log, planned, Ask, Plan, Reply};
use std::panic::{catch_unwind, AssertUnwindSafe};

#[derive(Clone, Debug, PartialEq)]
pub enum Call {
    Put(Vec<u8>, Vec<u8>, u64),
    Remove(Vec<u8>, u64),
    Sweep(u64),
    Mount(u64),
    Get(Vec<u8>),
    List(u64),
    Format(u64),
}

impl Call {
    pub const KINDS: [&'static str; 7] = ["format", "mount", "put", "get", "list", "remove", "sweep"];

    pub fn kind(&self) -> &'static str {
        match self {
            Call::Put(..) => "put",
            Call::Remove(..) => "remove",
            Call::Sweep(_) => "sweep",
            Call::Mount(_) => "mount",
            Call::Get(_) => "get",
            Call::List(_) => "list",
            Call::Format(_) => "format",
        }
    }

    /// Get and list do no step and take no allowance.
    pub fn allowance(&self) -> u64 {
        match self {
            Call::Put(_, _, k) | Call::Remove(_, k) => *k,
            Call::Sweep(k) | Call::Mount(k) | Call::Format(k) => *k,
            Call::Get(_) | Call::List(_) => 0,
        }
    }

    pub fn with_allowance(&self, allowance: u64) -> Call {
        let mut call = self.clone();
        match &mut call {
            Call::Put(_, _, k) | Call::Remove(_, k) => *k = allowance,
            Call::Sweep(k) | Call::Mount(k) | Call::Format(k) => *k = allowance,
            Call::Get(_) | Call::List(_) => {}
        }
        call
    }

    /// On the model.
    pub fn run(&self, img: &mut [u8]) -> Reply {
        match self {
            Call::Put(name, data, k) => model::put(img, name, data, *k),
            Call::Remove(name, k) => model::remove(img, name, *k),
            Call::Sweep(k) => model::sweep(img, *k),
            Call::Mount(k) => model::mount(img, *k),
            Call::Get(name) => model::get(img, name),
            Call::List(index) => model::list(img, *index),
            Call::Format(k) => model::format(img, *k),
        }
    }

    /// What is asked of the model; none if the call does no step.
    pub fn ask(&self) -> Option<Ask<'_>> {
        match self {
            Call::Put(name, data, _) => Some(Ask::Put(name, data)),
            Call::Remove(name, _) => Some(Ask::Remove(name)),
            Call::Sweep(_) => Some(Ask::Sweep),
            Call::Mount(_) => Some(Ask::Mount),
            Call::Format(_) => Some(Ask::Format),
            Call::Get(_) | Call::List(_) => None,
        }
    }

    /// The model's plan of it; none if it is refused, or does no step.
    pub fn plan(&self, img: &[u8]) -> Option<Plan> {
        planned(img, self.ask()?).ok()
    }

    /// The steps that this call does with every allowance it could want.
    pub fn need(&self, img: &[u8]) -> u64 {
        self.plan(img).map_or(0, |plan| plan.steps.len() as u64)
    }
}

/// The answers that each call can give, by the table of document 01.
pub const ANSWERS: [(&str, &[u32]); 7] = [
    ("format", &[0, 4, 22]),
    ("mount", &[0, 4, 5, 6, 22]),
    ("put", &[0, 4, 5, 6, 16, 22, 28]),
    ("get", &[0, 2, 5, 6, 16, 22]),
    ("list", &[0, 2, 5, 6, 16, 22]),
    ("remove", &[0, 2, 4, 5, 6, 16, 22]),
    ("sweep", &[0, 4, 5, 6, 16, 22, 28]),
];

/// What carries out calls: the model here, a library in a comparison.
pub trait Store {
    /// The reply, or what was wrong with the steps of the call.
    fn call(&self, img: &mut [u8], call: &Call) -> Result<Reply, String>;
}

pub struct Model;

impl Store for Model {
    /// The steps done are the ones reported, and "the byte listed for it has no
    /// bit set that is clear in the byte it finds".
    fn call(&self, img: &mut [u8], call: &Call) -> Result<Reply, String> {
        log::start();
        let reply = call.run(img);
        let done = log::take();
        if done.len() as u64 != reply.steps {
            return Err(format!("{} steps done, {} reported", done.len(), reply.steps));
        }
        match done.iter().find(|d| !d.clears()) {
            Some(d) => Err(format!("{:02x?} over {:02x}", d.step, d.found)),
            None => Ok(reply),
        }
    }
}

/// The model with one fault: a wrong store, that a comparison must notice.
pub struct Wrong(pub Fault);

impl Store for Wrong {
    /// A wrong model may trip over the image that it made itself.
    fn call(&self, img: &mut [u8], call: &Call) -> Result<Reply, String> {
        let run = || faults::with(self.0, || call.run(img));
        catch_unwind(AssertUnwindSafe(run)).map_err(|_| "it panics".into())
    }
}

/// The allowances to cut a call of this need at: all, or of a long call those at
/// both ends and a sample; and one more than the need.
pub fn allowances(r: &mut Rng, need: u64) -> Vec<u64> {
    ends_and_sample(r, need, 60)
}

/// The same with fewer.
pub fn few_allowances(r: &mut Rng, need: u64) -> Vec<u64> {
    ends_and_sample(r, need, 4)
}

fn ends_and_sample(r: &mut Rng, need: u64, ends: u64) -> Vec<u64> {
    if need <= 2 * ends {
        (0..=need + 1).collect()
    } else {
        (0..=ends / 2).chain(need - ends..=need + 1).chain((0..ends / 2).map(|_| r.below(need))).collect()
    }
}

/// A formatted image.
pub fn formatted(n: usize) -> Vec<u8> {
    let mut img = vec![0xA5; n];
    assert_eq!(model::format(&mut img, ALL).answer, 0);
    img
}
