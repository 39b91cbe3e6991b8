//! The calls of liblilota.a.
mod check;
mod length;
mod plans;
mod traces;

pub use check::check;
pub use length::{length, length_alone};
pub use plans::Plans;
use std::path::Path;
pub use traces::Replays;

testing::c_library!(lilota_format lilota_mount lilota_put lilota_get lilota_list lilota_remove lilota_sweep);

/// Where the library was found.
pub fn path() -> &'static Path {
    Path::new(env!("LILOTA_LIB_PATH"))
}
