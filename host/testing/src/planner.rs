//! What hands out the steps of a call before the first of them is done (K1): the model
//! here, a library in a comparison.
use crate::call::{Call, Model, Wrong};
use model::faults;
use model::{plan_out, Handing};
use std::panic::{catch_unwind, AssertUnwindSafe};

/// The calls that are planned.
pub const PLANNED: [&str; 4] = ["put", "remove", "sweep", "mount"];

pub trait Planner {
    /// The steps of a call of `PLANNED` from the step `first` on, into kinds, addresses and
    /// bytes; or what was wrong. The image has to stay as it is.
    fn plan(&self, img: &mut [u8], call: &Call, first: u64, slices: [&mut [u32]; 3]) -> Result<Handing, String>;
}

fn by_model(img: &[u8], call: &Call, first: u64, slices: [&mut [u32]; 3]) -> Handing {
    plan_out(img, call.ask().expect("a writing call"), first, slices)
}

impl Planner for Model {
    fn plan(&self, img: &mut [u8], call: &Call, first: u64, slices: [&mut [u32]; 3]) -> Result<Handing, String> {
        Ok(by_model(img, call, first, slices))
    }
}

impl Planner for Wrong {
    /// A wrong model may trip over the image.
    fn plan(&self, img: &mut [u8], call: &Call, first: u64, slices: [&mut [u32]; 3]) -> Result<Handing, String> {
        let run = || faults::with(self.0, || by_model(img, call, first, slices));
        catch_unwind(AssertUnwindSafe(run)).map_err(|_| "it panics".into())
    }
}
