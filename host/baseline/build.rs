//! Compiles the C files by gcc -O2 into a static library.
use std::path::Path;
use std::process::Command;

const FILES: [&str; 11] =
    ["place", "head", "chain", "names", "reading", "read", "space", "write", "move", "mount", "scan"];
/// Functions begin at a cache line, so that times don't depend on where the linker puts them.
const FLAGS: [&str; 8] =
    ["-O2", "-falign-functions=64", "-std=c99", "-Wall", "-Wextra", "-Werror", "-pedantic", "-fPIE"];

fn run(command: &mut Command) {
    let status = command.status().unwrap_or_else(|e| panic!("{command:?}: {e}"));
    assert!(status.success(), "{command:?}");
}

fn main() {
    let folder = std::env::var("OUT_DIR").expect("cargo says where");
    let mut archive = Command::new("ar");
    archive.arg("rcs").arg(Path::new(&folder).join("libbaseline.a"));
    for file in FILES {
        let object = Path::new(&folder).join(format!("{file}.o"));
        run(Command::new("gcc").args(FLAGS).arg("-c").arg(format!("c/{file}.c")).arg("-o").arg(&object));
        archive.arg(object);
    }
    run(&mut archive);
    println!("cargo:rustc-link-search=native={folder}");
    println!("cargo:rustc-link-lib=static=baseline");
    println!("cargo:rerun-if-changed=c");
}
