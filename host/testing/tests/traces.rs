//! The comparison of replays (K7): it finds no difference where there is none, comes to every
//! kind of stop, and notices wrong replays.
use model::faults::Fault;
use testing::call::{Model, Wrong};
use testing::compare::{Traces, TRACE_TAGS};

#[test]
fn the_model_replays_what_it_plans() {
    let mut traces = Traces::new(&Model);
    traces.run(3, 150);
    assert_eq!(traces.differ, 0);
    for tag in TRACE_TAGS {
        assert!(traces.tagged(tag) >= 5, "{tag}\n{}", traces.report());
    }
}

#[test]
fn faults_are_noticed() {
    for fault in Fault::REPLAY {
        let wrong = Wrong(fault);
        let mut traces = Traces::new(&wrong);
        traces.run(4, 60);
        assert!(traces.differ > 0, "{fault:?} is not noticed");
    }
}
