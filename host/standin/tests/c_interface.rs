//! The header, and the C examples with the stand-in. (With the proved library:
//! package compare.)
use std::path::{Path, PathBuf};
use testing::cc::{accepted_by_both, expected, host, images_to_check, run_check, run_example, run_report, EXAMPLES};
use testing::ALL;

#[test]
fn header_is_c_and_cpp() {
    accepted_by_both(&host().join("../include/lilota.h"));
    for example in EXAMPLES.into_iter().chain(["report", "check"]) {
        accepted_by_both(&host().join(format!("examples/{example}.c")));
    }
}

/// Cargo builds it before this test, beside the test itself.
fn archive() -> PathBuf {
    let test = std::env::current_exe().expect("a path");
    let folder = test.parent().expect("a folder");
    let found = std::fs::read_dir(folder).expect("a folder").map(|f| f.expect("a file").path());
    let is_archive = |p: &PathBuf| {
        let name = p.file_name().map_or("".into(), |n| n.to_string_lossy().into_owned());
        name.starts_with("libstandin") && name.ends_with(".a")
    };
    found.filter(is_archive).max_by_key(|p| p.metadata().and_then(|m| m.modified()).ok()).expect("libstandin.a")
}

#[test]
fn examples_print_what_they_should() {
    for example in EXAMPLES {
        let printed = run_example(example, &archive(), Path::new(env!("CARGO_TARGET_TMPDIR")));
        assert_eq!(printed, expected(example));
    }
}

/// After the first put of "dose" and a sweep: head 40, tail 64.
#[test]
fn service_screen() {
    let mut img = testing::call::formatted(8192);
    assert_eq!(model::put(&mut img, b"dose", &[1, 2, 3], ALL).answer, 0);
    assert_eq!(model::sweep(&mut img, ALL).answer, 0);
    let printed = run_report(&archive(), Path::new(env!("CARGO_TARGET_TMPDIR")), &img);
    assert_eq!(printed, expected("report"));
}

#[test]
fn check_of_files() {
    let printed = run_check(&archive(), Path::new(env!("CARGO_TARGET_TMPDIR")), &images_to_check());
    assert_eq!(printed, expected("check"));
}
