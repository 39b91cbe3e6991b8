//! Cuts inside a byte (K14): "after a cut call's steps used, any subset of the bits that
//! its next program step would clear may be clear".
use crate::call::Call;
use crate::rng::Rng;
use crate::ALL;
use model::{cut_inside, floor, Reply, Step};

/// A call of a history.
#[derive(Clone, Debug)]
pub struct Made {
    pub call: Call,
    /// what the byte of its next program step then holds: without effect where the call
    /// is not cut, its next step is an erase, or no such byte may stand there. None: cut
    /// between two steps
    pub held: Option<u8>,
}

impl Made {
    /// Cut between two steps, or not at all.
    pub fn between(call: Call) -> Made {
        Made { call, held: None }
    }
}

/// A byte before a program step: as it is, and as the step lists it.
#[derive(Clone, Copy, PartialEq, Debug)]
pub struct Next {
    pub found: u8,
    pub listed: u8,
}

impl Next {
    fn bits(self) -> u8 {
        self.found & !self.listed
    }

    /// A value that the cut may leave, but the one found: now and then all bits but one,
    /// or one alone, or all.
    pub fn value(self, r: &mut Rng) -> Option<u8> {
        let (one, any) = (1 << r.below(8), r.bits() as u8);
        let mask = r.of(&[any, any, one, !one, 0xFF]);
        let cleared = self.bits() & mask;
        (cleared != 0).then_some(self.found & !cleared)
    }

    /// The values that the cut may leave, but the one found: all where the step clears
    /// up to four bits, else a sample.
    pub fn values(self, r: &mut Rng) -> Vec<u8> {
        let bits = self.bits();
        if bits.count_ones() > 4 {
            return (0..2).filter_map(|_| self.value(r)).collect();
        }
        (1..=bits).filter(|cleared| cleared & !bits == 0).map(|cleared| self.found & !cleared).collect()
    }
}

/// The next byte of a call that its allowance cuts; none if it is not cut, or if its
/// next step is an erase.
pub fn next(img: &[u8], call: &Call) -> Option<Next> {
    let plan = call.plan(img)?;
    let done = usize::try_from(call.allowance()).ok().filter(|&k| k < plan.steps.len())?;
    let Step::Program(a, listed) = plan.steps[done] else { return None };
    let written = plan.steps[..done].iter().rev().find_map(|&step| match step {
        Step::Program(at, byte) => (at == a).then_some(byte),
        Step::Erase(at) => (at == floor(a)).then_some(0xFF),
    });
    Some(Next { found: written.unwrap_or(img[a as usize]), listed })
}

/// The call with, now and then, a cut inside its next byte; where there is none, as
/// before an erase, a byte that must have no effect.
pub fn sometimes(r: &mut Rng, img: &[u8], call: Call) -> Made {
    if call.allowance() == ALL || r.chance(40) {
        return Made::between(call);
    }
    let any = r.bits() as u8;
    let held = match next(img, &call) {
        Some(next) => next.value(r),
        None => Some(r.of(&[0x80, 0x00, any])),
    };
    Made { call, held }
}

/// The call on the model, with the cut inside a byte.
pub fn run(img: &mut [u8], made: &Made) -> Reply {
    let plan = made.held.and_then(|_| made.call.plan(img));
    let reply = made.call.run(img);
    if let (Some(held), Some(plan)) = (made.held, plan) {
        cut_inside(img, left(&plan.steps, &reply), held);
    }
    reply
}

/// The steps that a call which answered so has left undone.
pub fn left<'p>(steps: &'p [Step], reply: &Reply) -> &'p [Step] {
    let done = if reply.answer == 4 { reply.steps as usize } else { steps.len() };
    steps.get(done..).unwrap_or(&[])
}

#[cfg(test)]
mod tests {
    use super::*;

    /// "any subset", but the empty one.
    #[test]
    fn every_subset_of_few_bits() {
        let mut r = Rng::new(1);
        let values = |found, listed, r: &mut Rng| Next { found, listed }.values(r);
        assert_eq!(values(0xFE, 0xFC, &mut r), [0xFC]);
        assert_eq!(values(0xA5, 0xA0, &mut r), [0xA4, 0xA1, 0xA0]);
        assert_eq!(values(0x77, 0x77, &mut r), []);
        assert_eq!(values(0xFF, 0x0F, &mut r).len(), 15);
        for _ in 0..1000 {
            for v in values(0xFF, 0x02, &mut r) {
                assert!(v & 0x02 == 0x02 && v != 0xFF);
            }
        }
    }
}
