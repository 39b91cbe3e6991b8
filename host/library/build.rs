//! Links liblilota.a: the file that LILOTA_LIB names, or the one that
//! `rt lib` writes in crates/lilota.
use std::path::{Path, PathBuf};

const BUILT: &str = "../../crates/lilota/out/liblilota.a";

fn main() {
    println!("cargo:rerun-if-env-changed=LILOTA_LIB");
    let path = std::env::var("LILOTA_LIB").map_or(PathBuf::from(BUILT), PathBuf::from);
    let path = path.canonicalize().unwrap_or_else(|e| {
        panic!("{}: {e}; run `bash host/prove`, or name a library by its whole path in LILOTA_LIB", path.display())
    });
    println!("cargo:rerun-if-changed={}", path.display());
    println!("cargo:rustc-env=LILOTA_LIB_PATH={}", path.display());
    let folder = path.parent().unwrap_or(Path::new("/"));
    let file = path.file_name().expect("a file").to_string_lossy();
    println!("cargo:rustc-link-search=native={}", folder.display());
    println!("cargo:rustc-link-lib=static:+verbatim={file}");
}
