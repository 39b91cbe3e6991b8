//! A store against the model: answers, numbers and all bytes of the image.
mod arbitrary;
mod colliding;
mod fixed;
mod mounting;
mod naming;
mod planning;
mod plans;
mod tally;
mod traces;
mod writing;

use crate::call::{Call, Store};
use crate::cut::{self, Made};
use crate::planner::Planner;
use crate::rng::Rng;
use model::Reply;
use planning::Planning;
pub use plans::{Plans, PLAN_ANSWERS, PLAN_TAGS};
pub use tally::Tally;
pub use traces::{Traces, TRACE_TAGS};
pub use writing::name_for;

/// A run is given up when so many calls differ.
const ENOUGH: u64 = 20;
/// Random images before the aimed ones.
const EARLY: u64 = 3_000;

pub struct Comparison<'s, S: Store> {
    store: &'s S,
    pub tally: Tally,
    /// none for a store without plans
    planning: Option<Planning<'s>>,
}

impl<'s, S: Store> Comparison<'s, S> {
    pub fn new(store: &'s S) -> Self {
        Comparison { store, tally: Tally::default(), planning: None }
    }

    /// With the plans of its writing calls (K1).
    pub fn with_plans(store: &'s S, planner: &'s dyn Planner) -> Self {
        Comparison { planning: Some(Planning::new(planner)), ..Comparison::new(store) }
    }

    /// What was tried of plans.
    pub fn plans(&self) -> Option<&Plans> {
        self.planning.as_ref().map(|p| &p.tally)
    }

    /// Rounds of random images until there were so many, with all that is aimed after
    /// the first few: most faults are told early. `large` adds images of 16 MiB
    /// and contents of 4 GiB.
    pub fn run(&mut self, seed: u64, images: u64, large: bool) {
        let mut r = Rng::new(seed);
        self.rounds(&mut r, images.min(EARLY));
        if !self.given_up() {
            fixed::lengths(self, large);
            if large {
                fixed::too_long(self);
            }
            fixed::names(self);
            fixed::contents(self, &mut r);
            fixed::every_cut_mounted(self, &mut r);
        }
        self.rounds(&mut r, images.saturating_sub(EARLY));
    }

    fn rounds(&mut self, r: &mut Rng, images: u64) {
        let goal = self.tally.images + images;
        while self.tally.images < goal && !self.given_up() {
            self.round(r);
        }
    }

    /// Each source once, in shares that give each about the same time.
    fn round(&mut self, r: &mut Rng) {
        arbitrary::history(self, r, 60);
        for _ in 0..150 {
            arbitrary::any(self, r);
        }
        writing::settled(self, r);
        mounting::unfinished(self, r);
    }

    pub fn given_up(&self) -> bool {
        self.tally.differ + self.plans().map_or(0, |plans| plans.differ) >= ENOUGH
    }

    /// Counts an image of this source.
    fn image(&mut self, source: &'static str) {
        self.tally.images += 1;
        *self.tally.sources.entry(source).or_default() += 1;
        if let Some(planning) = &mut self.planning {
            planning.image(source);
        }
    }

    /// One call on a copy of the image, by the store and by the model. Gives what
    /// the model answers and leaves.
    fn call(&mut self, img: &[u8], call: &Call) -> (Reply, Vec<u8>) {
        let mut expected = img.to_vec();
        let reply = call.run(&mut expected);
        if !self.given_up() {
            self.tally.count(img, call, &reply, &expected);
            let mut left = img.to_vec();
            let told = self.store.call(&mut left, call);
            if told.as_ref() != Ok(&reply) || left != expected {
                self.tally.differs(call, img, (&reply, &expected), (&told, &left));
            }
            if let Some(planning) = &mut self.planning {
                planning.call(self.store, img, call);
            }
        }
        (reply, expected)
    }

    /// The same call at many allowances, all if it is short. Gives what the model
    /// leaves at each that is below the need, and now and then with a byte cut inside.
    fn cuts(&mut self, r: &mut Rng, img: &[u8], call: &Call) -> Vec<Vec<u8>> {
        let need = call.need(img);
        let mut left = Vec::new();
        for k in crate::call::allowances(r, need) {
            let call = call.with_allowance(k);
            let (_, after) = self.call(img, &call);
            if k < need {
                left.push(after);
                left.extend(inside(r, img, call));
            }
        }
        left
    }
}

/// Now and then what a cut inside its next byte leaves of this call.
fn inside(r: &mut Rng, img: &[u8], call: Call) -> Option<Vec<u8>> {
    let made = cut::sometimes(r, img, call);
    let Made { held: Some(_), .. } = made else { return None };
    let mut left = img.to_vec();
    cut::run(&mut left, &made);
    Some(left)
}
