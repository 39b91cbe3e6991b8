//! What replays a bus trace (K7): the model here, a library in a comparison.
use crate::call::{Model, Wrong};
use model::faults;
use model::{first_refused, replay, Refusing, Replayed, Trace};
use std::panic::{catch_unwind, AssertUnwindSafe};

pub trait Replayer {
    /// Replays the trace over the image; or what was wrong.
    fn replay(&self, img: &mut [u8], trace: Trace) -> Result<Replayed, String>;
    /// Looks for the first image that mount would refuse.
    fn first_refused(&self, img: &mut [u8], trace: Trace) -> Result<Refusing, String>;
}

impl Replayer for Model {
    fn replay(&self, img: &mut [u8], trace: Trace) -> Result<Replayed, String> {
        Ok(replay(img, trace))
    }

    fn first_refused(&self, img: &mut [u8], trace: Trace) -> Result<Refusing, String> {
        Ok(first_refused(img, trace))
    }
}

impl Replayer for Wrong {
    /// A wrong model may trip over the image.
    fn replay(&self, img: &mut [u8], trace: Trace) -> Result<Replayed, String> {
        let run = || faults::with(self.0, || replay(img, trace));
        catch_unwind(AssertUnwindSafe(run)).map_err(|_| "it panics".into())
    }

    fn first_refused(&self, img: &mut [u8], trace: Trace) -> Result<Refusing, String> {
        let run = || faults::with(self.0, || first_refused(img, trace));
        catch_unwind(AssertUnwindSafe(run)).map_err(|_| "it panics".into())
    }
}
