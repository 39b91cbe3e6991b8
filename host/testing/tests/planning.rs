//! The comparison of plans (K1): it finds no difference where there is none, comes to
//! every answer and kind of window, and notices wrong planners.
use model::faults::Fault;
use model::Handing;
use testing::call::{Call, Model, Wrong};
use testing::compare::{Comparison, PLAN_ANSWERS, PLAN_TAGS};
use testing::planner::Planner;

/// The model's direct calls beside the plans of this planner.
fn compared(planner: &dyn Planner, images: u64) -> Comparison<'_, Model> {
    let mut comparison = Comparison::with_plans(&Model, planner);
    comparison.run(5, images, false);
    comparison
}

#[test]
fn the_model_plans_what_it_does() {
    let comparison = compared(&Model, 10_000);
    let plans = comparison.plans().expect("with plans");
    assert_eq!(comparison.tally.differ + plans.differ, 0, "{}", plans.report());
    assert!(plans.images >= 10_000 && plans.carried >= 10_000, "{}", plans.report());
    for (kind, answers) in PLAN_ANSWERS {
        for &answer in answers {
            assert!(plans.answered(kind, answer) >= 20, "{kind} {answer}\n{}", plans.report());
        }
    }
    for tag in PLAN_TAGS {
        assert!(plans.tagged(tag) >= 20, "{tag}\n{}", plans.report());
    }
}

/// How many plans differ; the direct calls are the model's own.
fn differ(planner: &dyn Planner) -> u64 {
    let comparison = compared(planner, 2_000);
    assert_eq!(comparison.tally.differ, 0);
    comparison.plans().map_or(0, |plans| plans.differ)
}

#[test]
fn faults_are_noticed() {
    for fault in Fault::PLANNER {
        assert!(differ(&Wrong(fault)) > 0, "{fault:?} is not noticed");
    }
    // and a planner that goes by another list than the direct call
    for fault in [Fault::NotCleaned, Fault::StartAtOnce, Fault::VoidedAtOnce] {
        assert!(differ(&Wrong(fault)) > 0, "{fault:?} is not noticed");
    }
}

/// The model's planner, with what it hands out or leaves changed by a function.
struct Changed(fn(&mut Handing, &mut [u8], &mut [u32]));

impl Planner for Changed {
    fn plan(&self, img: &mut [u8], call: &Call, first: u64, slices: [&mut [u32]; 3]) -> Result<Handing, String> {
        let [kinds, addresses, bytes] = slices;
        let mut handing = Model.plan(img, call, first, [kinds, addresses, &mut *bytes])?;
        (self.0)(&mut handing, img, bytes);
        Ok(handing)
    }
}

/// Scratch work in the image that was lent.
fn image_changed(handing: &mut Handing, img: &mut [u8], _: &mut [u32]) {
    if handing.handed > 0 {
        img[img.len() - 1] ^= 1;
    }
}

fn slot_behind_the_window(handing: &mut Handing, _: &mut [u8], bytes: &mut [u32]) {
    if let Some(slot) = bytes.get_mut(handing.handed as usize) {
        *slot = 0;
    }
}

fn answers_as_if_cut(handing: &mut Handing, _: &mut [u8], _: &mut [u32]) {
    if handing.handed > 0 && handing.handed < handing.reply.steps {
        handing.reply.answer = 4;
    }
}

fn one_handed_too_many(handing: &mut Handing, _: &mut [u8], _: &mut [u32]) {
    handing.handed += (handing.handed > 16) as u64;
}

#[test]
fn changed_plans_are_noticed() {
    for change in [image_changed, slot_behind_the_window, answers_as_if_cut, one_handed_too_many] {
        assert!(differ(&Changed(change)) > 0);
    }
}
