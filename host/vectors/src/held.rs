//! The byte of the next step that a vector's call is told.
use model::{Reply, Step};
use testing::call::Call;
use testing::cut::{self, Made};
use testing::rng::Rng;
use testing::ALL;

/// A call of a vector: with a byte cut inside, or with none.
pub struct Told {
    pub made: Made,
    /// what the definitions are told: the byte cut inside, or one that must have no effect
    pub byte: u64,
    /// what a cut shows (required.rs)
    pub tag: Option<&'static str>,
}

/// The call on this image, told a byte.
pub fn told(r: &mut Rng, img: &[u8], call: Call) -> Told {
    let next = cut::next(img, &call);
    let inside = if r.chance(70) { next.and_then(|n| n.value(r)) } else { None };
    let (byte, tag) = match (inside, next) {
        (Some(held), _) => (u64::from(held), Some("cut inside a byte")),
        (None, Some(next)) => (no_effect(next.listed), Some("cut between bytes")),
        (None, None) => match behind_an_erase(img, &call) {
            Some(byte) => (byte, Some("cut before an erase")),
            None => (0, None),
        },
    };
    Told { made: Made { call, held: inside }, byte, tag }
}

/// The call, whole or cut between two steps, and no byte.
pub fn plain(call: Call) -> Told {
    Told { made: Made::between(call), byte: 256, tag: None }
}

impl Told {
    pub fn run(&self, img: &mut [u8]) -> Reply {
        cut::run(img, &self.made)
    }
}

/// A byte that lacks a bit which the step keeps; 256 if it keeps none.
fn no_effect(listed: u8) -> u64 {
    if listed == 0 {
        256
    } else {
        u64::from(listed & (listed - 1))
    }
}

/// "erase stays atomic": of a call cut before an erase, the byte of the program step
/// behind it, or 0.
fn behind_an_erase(img: &[u8], call: &Call) -> Option<u64> {
    let plan = call.plan(img).filter(|_| call.allowance() < ALL)?;
    let left = plan.steps.get(call.allowance() as usize..)?;
    let Some(Step::Erase(_)) = left.first() else { return None };
    let later = left.iter().find_map(|s| if let Step::Program(_, byte) = s { Some(*byte) } else { None });
    Some(later.map_or(0, u64::from))
}
