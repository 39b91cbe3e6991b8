//! Plans (K1) against the model: windows of steps with the slots that stay, the windows
//! put together, and their first steps carried out against the direct call.
use super::plans::Plans;
use crate::call::{Call, Store};
use crate::planner::{Planner, PLANNED};
use crate::rng::Rng;
use model::{hand_out, planned, Handing, Plan, Refusal, SECTOR};

/// A long list is handed out in about so many windows.
const MOST_WINDOWS: u64 = 10;
/// Of a hundred calls whose like was planned on the image already so many are planned.
const AGAIN: u64 = 8;

/// A step as the slots have it: kind, address, byte.
type Numbers = [u32; 3];

pub struct Planning<'s> {
    planner: &'s dyn Planner,
    /// random numbers of its own: the images are the same with and without plans
    r: Rng,
    /// the calls that were planned on the image at hand
    tried: Vec<&'static str>,
    pub tally: Plans,
}

/// A call on an image, and the model's plan of it.
struct Trial<'a> {
    img: &'a [u8],
    call: &'a Call,
    plan: Result<Plan, Refusal>,
}

impl Trial<'_> {
    fn need(&self) -> u64 {
        self.plan.as_ref().map_or(0, |plan| plan.steps.len() as u64)
    }
}

/// Three slices, each slot with a mark of its own that no step has.
fn marked(lengths: [usize; 3]) -> [Vec<u32>; 3] {
    let mut slice = 0xC0;
    lengths.map(|length| {
        slice += 1;
        (0..length as u32).map(|i| slice << 24 | i).collect()
    })
}

/// The numbers in the first slots, as many as there are.
fn rows(slices: &[Vec<u32>; 3], count: u64) -> Vec<Numbers> {
    let [kinds, addresses, bytes] = slices;
    let all = kinds.iter().zip(addresses).zip(bytes).map(|((&k, &a), &b)| [k, a, b]);
    all.take(count as usize).collect()
}

/// Carries steps out as a driver does; false if one is none.
fn carried(flash: &mut [u8], steps: &[Numbers]) -> bool {
    steps.iter().all(|&[kind, address, byte]| {
        let (at, length) = (address as usize, if kind == 2 { SECTOR as usize } else { 1 });
        let Some(bytes) = flash.get_mut(at..at + length) else { return false };
        bytes.fill(byte as u8);
        matches!(kind, 1 | 2) && byte <= 0xFF
    })
}

impl<'s> Planning<'s> {
    pub fn new(planner: &'s dyn Planner) -> Self {
        Planning { planner, r: Rng::new(17), tried: Vec::new(), tally: Plans::default() }
    }

    /// Another image, of this source.
    pub fn image(&mut self, source: &'static str) {
        self.tried.clear();
        self.tally.source = source;
    }

    /// Plans this call, if it can be planned: once on each image, and now and then again.
    pub fn call(&mut self, store: &impl Store, img: &[u8], call: &Call) {
        let kind = call.kind();
        let Some(ask) = call.ask().filter(|_| PLANNED.contains(&kind)) else { return };
        let again = self.tried.contains(&kind);
        if again && !self.r.chance(AGAIN) {
            return;
        }
        self.tally.image(self.tried.is_empty());
        self.tried.push(kind);
        let trial = Trial { img, call, plan: planned(img, ask) };
        self.tally.call(img, call, trial.plan.as_ref());
        let list = self.in_turn(&trial);
        self.elsewhere(&trial);
        if trial.plan.is_ok() {
            self.carry_out(store, &trial, &list);
        }
    }

    /// Window after window from step 0 on, as a driver asks for them.
    fn in_turn(&mut self, trial: &Trial) -> Vec<Numbers> {
        let need = trial.need();
        let length = self.r.of(&[1, 2, 3, 5, 7, 16, 17, 33, 64]).max(need / MOST_WINDOWS);
        let mut list = Vec::new();
        loop {
            let shortest = length + self.r.below(3);
            let lengths = self.lengths(shortest);
            let handed = self.window(trial, list.len() as u64, lengths);
            if handed.is_empty() {
                break;
            }
            list.extend(handed);
            if list.len() as u64 >= need {
                break;
            }
        }
        if list.len() as u64 != need {
            self.tally.differs(trial.call, trial.img, format!("{need} steps, {} handed out in turn", list.len()));
        }
        list
    }

    /// A window that begins anywhere, past the end too.
    fn elsewhere(&mut self, trial: &Trial) {
        let need = trial.need();
        let inside = self.r.below(need + 1);
        let first = self.r.of(&[inside, inside, inside, need, need + 1, need + 40, 1 << 32, u64::MAX]);
        let shortest = self.r.of(&[0, 1, 4, 33]);
        let lengths = self.lengths(shortest);
        self.window(trial, first, lengths);
    }

    /// Lengths of which this one is the shortest.
    fn lengths(&mut self, shortest: u64) -> [usize; 3] {
        let mut lengths = [0; 3].map(|_: usize| (shortest + self.r.of(&[0, 0, 1, 3, 20])) as usize);
        lengths[self.r.below(3) as usize] = shortest as usize;
        lengths
    }

    /// One window, by the planner and by the model. Gives the steps that the planner handed
    /// out.
    fn window(&mut self, trial: &Trial, first: u64, lengths: [usize; 3]) -> Vec<Numbers> {
        let mut expected = marked(lengths);
        let [kinds, addresses, bytes] = &mut expected;
        let handing = hand_out(&trial.plan, first, [kinds, addresses, bytes]);
        self.tally.window(trial.need(), first, lengths, &rows(&expected, handing.handed));
        let mut lent = trial.img.to_vec();
        let mut slices = marked(lengths);
        let [kinds, addresses, bytes] = &mut slices;
        let told = self.planner.plan(&mut lent, trial.call, first, [kinds, addresses, bytes]);
        if told != Ok(handing) || slices != expected || lent != trial.img {
            let slots = slices.iter().zip(&expected).position(|(left, right)| left != right);
            let what =
                [slots.map(|i| format!("slice {i} differs")), (lent != trial.img).then(|| "image changed".into())];
            let what: Vec<String> = what.into_iter().flatten().collect();
            let window = format!("from {first} into {lengths:?}: {}", what.join(", "));
            self.tally.differs(trial.call, trial.img, format!("{window}\n  model   {handing:?}\n  library {told:?}"));
        }
        let handed = told.map_or(0, |h: Handing| h.handed);
        rows(&slices, handed)
    }

    /// "Carrying out the first k planned steps gives the direct call's image at allowance k".
    fn carry_out(&mut self, store: &impl Store, trial: &Trial, list: &[Numbers]) {
        let need = list.len() as u64;
        let mut allowances = [self.r.below(need + 1), self.r.below(need + 1), trial.call.allowance().min(need)];
        allowances.sort();
        let mut flash = trial.img.to_vec();
        let mut done = 0;
        for k in allowances {
            let good = carried(&mut flash, &list[done..k as usize]);
            done = k as usize;
            let mut direct = trial.img.to_vec();
            let told = store.call(&mut direct, &trial.call.with_allowance(k));
            self.tally.carried(k, need);
            if !good || flash != direct || told.as_ref().map(|reply| reply.steps) != Ok(k) {
                self.tally.differs(
                    trial.call,
                    trial.img,
                    format!("carried out to step {k}; the direct call: {told:?}"),
                );
            }
        }
    }
}
