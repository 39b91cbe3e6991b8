//! Random histories, checked after every call.
use crate::call::{allowances, few_allowances, Call, Store};
use crate::colliding::Collisions;
use crate::cut::{self, Made};
use crate::facts::Facts;
use crate::ledger::{replay, shrink, World};
use crate::maker::Maker;
use crate::progress::Progress;
use crate::rng::Rng;
use crate::tags;
use model::{bits, blank, floor, read_image, SECTOR};
use std::collections::BTreeMap;

/// A history with its first violation.
pub struct Violation {
    pub n: usize,
    pub calls: Vec<Made>,
    pub what: String,
}

impl Violation {
    /// The violation, and a shorter history that has one.
    pub fn show(&self, store: &impl Store) -> String {
        let short = shrink(store, self.n, &self.calls);
        let mut s = format!("VIOLATION N={}: {}; {} calls\n", self.n, self.what, self.calls.len());
        s += &format!("minimised: {:?}\n", replay(store, self.n, &short));
        short.iter().for_each(|c| s += &format!("  {c:02x?}\n"));
        s
    }
}

/// From one image to the other is a step at most: one byte, whose bits only clear,
/// or one sector erased.
fn one_step(before: &[u8], after: &[u8]) -> bool {
    let changed: Vec<usize> = (0..before.len()).filter(|&a| before[a] != after[a]).collect();
    let (Some(&first), Some(&last)) = (changed.first(), changed.last()) else { return true };
    if first == last && after[first] & !before[first] == 0 {
        return true;
    }
    let sector = floor(first as u64);
    sector == floor(last as u64) && blank(after, sector, sector + SECTOR)
}

/// What was seen in the histories run so far.
#[derive(Default)]
pub struct Seen {
    /// calls checked, with those of cuts tried
    pub checked: u64,
    pub answers: BTreeMap<String, u64>,
    /// calls cut inside a byte, by kind
    pub inside: BTreeMap<&'static str, u64>,
    /// images by the bytes that such a cut leaves (testing::tags)
    pub bytes: BTreeMap<&'static str, u64>,
    /// images by how many of their names collide
    pub collisions: Collisions,
    /// images with a file whose name has a space
    pub spaced: u64,
    pub facts: Facts,
    /// puts, each followed by its sweeps
    pub progress: Progress,
}

impl Seen {
    fn look(&mut self, img: &[u8]) {
        self.checked += 1;
        self.facts.look(img);
        let Ok(c) = read_image(img) else { return };
        self.collisions.note(bits::colliding(c.live().map(|x| x.name(img))));
        self.spaced += c.live().any(|x| x.name(img).contains(&b' ')) as u64;
        for tag in tags::of_bytes(img, &c) {
            *self.bytes.entry(tag).or_default() += 1;
        }
    }
}

pub struct Tester<'s, S: Store> {
    pub store: &'s S,
    /// of a thousand calls, those at which every cut is tried, between two steps and
    /// inside a byte, each followed by cuts of the mount after it
    pub exhaust: u64,
    /// a history has 20 calls at least, and fewer than this
    pub longest: u64,
    /// one of so many calls is followed by a mount, list and get: each, unless many files
    /// would make that slow
    pub one_of: u64,
    pub seen: Seen,
}

/// Long enough that most stores turn more than once.
pub const LONGEST: u64 = 220;

impl<S: Store> Tester<'_, S> {
    /// Histories until so many calls are checked, each with an N of these and a maker
    /// of this; the first violation ends them.
    pub fn until(
        &mut self,
        r: &mut Rng,
        calls: u64,
        lengths: &[usize],
        maker: impl Fn(&mut Rng) -> Maker,
    ) -> Result<(), Violation> {
        while self.seen.checked < calls {
            let (n, maker) = (r.of(lengths), maker(r));
            let length = 20 + r.below(self.longest - 20);
            self.run(r, n, &maker, length)?;
        }
        Ok(())
    }

    /// One history of `length` calls.
    pub fn run(&mut self, r: &mut Rng, n: usize, maker: &Maker, length: u64) -> Result<(), Violation> {
        let mut w = World::new(n);
        let mut calls = Vec::new();
        for _ in 0..length {
            if r.below(1000) < self.exhaust {
                let whole = maker.whole_call(r, &w.img);
                self.every_cut(r, &w, &mut calls, &whole)?;
            }
            let call = maker.call(r, &w.img);
            let made = cut::sometimes(r, &w.img, call);
            self.step(&mut w, &mut calls, made)?;
        }
        Ok(())
    }

    /// One call and the check after it.
    fn step(&mut self, w: &mut World, calls: &mut Vec<Made>, made: Made) -> Result<(), Violation> {
        let kind = made.call.kind();
        let due = self.seen.checked % self.one_of == 0;
        let checked = w.step_with_sweeps(self.store, &made, &mut self.seen.progress).and_then(|(reply, inside)| {
            *self.seen.answers.entry(format!("{kind} {}", reply.answer)).or_default() += 1;
            *self.seen.inside.entry(kind).or_default() += inside as u64;
            due.then(|| w.check(self.store)).transpose()
        });
        calls.push(made);
        self.seen.look(&w.img);
        match checked {
            Ok(_) => Ok(()),
            Err(what) => Err(Violation { n: w.img.len(), calls: calls.clone(), what }),
        }
    }

    /// Every cut of a call (of a long one many), and many cuts of the mount after it.
    /// From one cut to the next is one step.
    fn every_cut(&mut self, r: &mut Rng, w: &World, calls: &mut Vec<Made>, call: &Call) -> Result<(), Violation> {
        let before = calls.len();
        let mut last: Option<(u64, Vec<u8>)> = None;
        for k in allowances(r, call.need(&w.img)) {
            let mut cut = w.clone();
            let call = call.with_allowance(k);
            self.step(&mut cut, calls, Made::between(call.clone()))?;
            if last.is_some_and(|(j, img)| j + 1 == k && !one_step(&img, &cut.img)) {
                let what = format!("from allowance {} to {k} is more than a step", k - 1);
                return Err(Violation { n: cut.img.len(), calls: calls.clone(), what });
            }
            for j in few_allowances(r, Call::Mount(0).need(&cut.img)) {
                self.mount(r, &cut, calls, j)?;
            }
            last = Some((k, cut.img));
            calls.truncate(before);
            self.inside(r, w, calls, call)?;
        }
        Ok(())
    }

    /// This cut inside the next byte, at every value or a sample, and a cut of the mount
    /// after each.
    fn inside(&mut self, r: &mut Rng, w: &World, calls: &mut Vec<Made>, call: Call) -> Result<(), Violation> {
        for held in cut::next(&w.img, &call).map_or(vec![], |next| next.values(r)) {
            let mut cut = w.clone();
            self.step(&mut cut, calls, Made { call: call.clone(), held: Some(held) })?;
            let need = Call::Mount(0).need(&cut.img);
            if need > 0 {
                let j = r.below(need);
                self.mount(r, &cut, calls, j)?;
            }
            calls.pop();
        }
        Ok(())
    }

    /// A mount cut at this allowance, now and then inside a byte.
    fn mount(&mut self, r: &mut Rng, w: &World, calls: &mut Vec<Made>, allowance: u64) -> Result<(), Violation> {
        let made = cut::sometimes(r, &w.img, Call::Mount(allowance));
        self.step(&mut w.clone(), calls, made)?;
        calls.pop();
        Ok(())
    }
}
