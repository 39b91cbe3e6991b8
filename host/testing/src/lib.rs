//! What all testers share: random numbers, calls and images, the ledger of
//! document 01 and the check of demand 3, K6's promise, the facts expected of
//! histories.

pub mod aimed;
pub mod bounds;
pub mod c_calls;
pub mod call;
pub mod cc;
pub mod colliding;
pub mod compare;
pub mod cut;
pub mod facts;
pub mod faulty;
pub mod history;
pub mod images;
pub mod ledger;
pub mod lengths;
pub mod maker;
pub mod names;
pub mod odd;
pub mod planner;
pub mod progress;
pub mod replayer;
pub mod rng;
pub mod stuck;
pub mod tags;
pub mod traces;
pub mod worst;

/// An allowance that no call uses up.
pub const ALL: u64 = u64::MAX;

/// The n-th word of the command line as a number, or `default`.
pub fn argument(n: usize, default: u64) -> u64 {
    std::env::args().nth(n).map_or(default, |x| x.parse().expect("a number"))
}
