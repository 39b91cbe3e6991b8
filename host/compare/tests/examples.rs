//! The C examples with the library.
use std::path::Path;
use testing::cc::{expected, images_to_check, run_check, run_example, EXAMPLES};

#[test]
fn examples_print_what_they_should() {
    for example in EXAMPLES {
        let printed = run_example(example, library::path(), Path::new(env!("CARGO_TARGET_TMPDIR")));
        assert_eq!(printed, expected(example));
    }
}

#[test]
fn check_of_files() {
    let printed = run_check(library::path(), Path::new(env!("CARGO_TARGET_TMPDIR")), &images_to_check());
    assert_eq!(printed, expected("check"));
}
