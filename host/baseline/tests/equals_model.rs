//! The C baseline answers and leaves what the model does.
use testing::c_calls::Library;
use testing::compare::Comparison;

#[test]
fn baseline_equals_the_model() {
    let store = Library::new(baseline::functions());
    let mut comparison = Comparison::new(&store);
    comparison.run(3, 20_000, false);
    assert_eq!(comparison.tally.differ, 0, "{}", comparison.tally.report());
}
