//! The library against the model: answers, numbers and all bytes of the image; and its
//! plans (K1), the slots of the slices too; and replays of traces (K7).
//!   compare [IMAGES [SEED]]
use testing::argument;
use testing::c_calls::Library;
use testing::compare::{Comparison, Traces};

/// Of so many images one is replayed over.
const REPLAYED: u64 = 100;
/// So many come to every kind of stop.
const ALL_STOPS: u64 = 100;
/// A short run, of some seconds, leaves out the images of 16 MiB.
const SHORT: u64 = 50_000;

fn main() {
    let (images, seed) = (argument(1, 12_000), argument(2, 1));
    let store = Library::new(library::functions());
    println!("library: {}", library::path().display());
    let planner = library::Plans::default();
    let mut comparison = Comparison::with_plans(&store, &planner);
    comparison.run(seed, images, images > SHORT);
    let plans = comparison.plans().expect("with plans");
    let replayer = library::Replays::default();
    let mut traces = Traces::new(&replayer);
    traces.run(seed, images / REPLAYED);
    println!("{}", traces.report());
    println!("{}\n{}", plans.report(), comparison.tally.report());
    let lacking = if images / REPLAYED < ALL_STOPS { Vec::new() } else { traces.lacking() };
    if !lacking.is_empty() {
        println!("no trace came to: {}", lacking.join(", "));
    }
    let differ = comparison.tally.differ + plans.differ + traces.differ;
    if differ > 0 || comparison.tally.calls == 0 || plans.calls == 0 || !lacking.is_empty() {
        std::process::exit(1);
    }
}
