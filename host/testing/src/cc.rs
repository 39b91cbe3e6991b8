//! The C compiler, for tests of the header and of the C examples.
use crate::faulty::three;
use std::path::{Path, PathBuf};
use std::process::Command;

/// The programs of host/examples.
pub const EXAMPLES: [&str; 5] = ["dose", "boot", "promise", "spi", "names"];
/// Everything that the compilers warn of is an error.
const STRICT: [&str; 4] = ["-Wall", "-Wextra", "-Werror", "-pedantic"];

/// The folder of the workspace.
pub fn host() -> PathBuf {
    Path::new(env!("CARGO_MANIFEST_DIR")).parent().expect("a folder above").to_path_buf()
}

fn include() -> String {
    format!("-I{}", host().join("../include").display())
}

fn succeed(command: &mut Command) -> String {
    let out = command.output().unwrap_or_else(|e| panic!("{command:?}: {e}"));
    assert!(out.status.success(), "{command:?}\n{}", String::from_utf8_lossy(&out.stderr));
    String::from_utf8(out.stdout).expect("plain text")
}

/// The source is C 99 and C++ 11 without a warning.
pub fn accepted_by_both(source: &Path) {
    for (compiler, language, standard) in [("gcc", "c", "-std=c99"), ("g++", "c++", "-std=c++11")] {
        let mut command = Command::new(compiler);
        command.args(["-x", language, standard, "-fsyntax-only"]).args(STRICT).arg(include()).arg(source);
        succeed(&mut command);
    }
}

/// Compiles an example of host/examples with a static library.
fn compiled(name: &str, library: &Path, folder: &Path) -> PathBuf {
    let program = folder.join(name);
    let mut compile = Command::new("gcc");
    compile.args(["-std=c99", "-O2"]).args(STRICT).arg(include());
    compile.arg(host().join(format!("examples/{name}.c"))).arg(library);
    // a static library made by rustc wants these
    compile.args(["-lpthread", "-ldl", "-lm", "-o"]).arg(&program);
    succeed(&mut compile);
    program
}

/// Runs an example with the path of an image file that it may write, and gives what it
/// printed.
pub fn run_example(name: &str, library: &Path, folder: &Path) -> String {
    succeed(Command::new(compiled(name, library, folder)).arg(folder.join(format!("{name}.image"))))
}

/// What the service screen prints of this image, behind the file's name; the file stays
/// as it is.
pub fn run_report(library: &Path, folder: &Path, image: &[u8]) -> String {
    let path = folder.join("report.image");
    std::fs::write(&path, image).expect("a file");
    let printed = succeed(Command::new(compiled("report", library, folder)).arg(&path));
    assert_eq!(std::fs::read(&path).expect("the file"), image);
    printed.strip_prefix(&format!("{}: ", path.display())).expect("the file's name").to_string()
}

/// What the check of image files prints of these, each by its file's name; it fails, for
/// one of them is broken. The files stay as they are.
pub fn run_check(library: &Path, folder: &Path, images: &[(&str, Vec<u8>)]) -> String {
    let paths: Vec<PathBuf> = images.iter().map(|(name, _)| folder.join(name)).collect();
    for (path, (_, image)) in paths.iter().zip(images) {
        std::fs::write(path, image).expect("a file");
    }
    let out = Command::new(compiled("check", library, folder)).args(&paths).output().expect("the program runs");
    assert_eq!(out.status.code(), Some(1), "a broken image");
    for (path, (_, image)) in paths.iter().zip(images) {
        assert_eq!(&std::fs::read(path).expect("the file"), image);
    }
    String::from_utf8(out.stdout).expect("plain text").replace(&format!("{}/", folder.display()), "")
}

/// Three images for it: with nothing to do, with a torn record at the tail, and with a
/// record at 64 of 9,000 data bytes.
pub fn images_to_check() -> Vec<(&'static str, Vec<u8>)> {
    let (good, mut torn, mut long) = (three(), three(), three());
    torn[88] = 0xA5;
    long[68..72].copy_from_slice(&[0x28, 0x23, 0x00, 0x00]);
    vec![("good.image", good), ("torn.image", torn), ("long.image", long)]
}

/// What an example has to print, worked out by hand.
pub fn expected(name: &str) -> String {
    let path = host().join(format!("examples/{name}.expected"));
    std::fs::read_to_string(&path).unwrap_or_else(|e| panic!("{}: {e}", path.display()))
}
