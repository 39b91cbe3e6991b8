//! Replays of bus traces (K7) against the model: traces that K1 plans, whole and damaged in
//! every way at every position, traces on images that mount refuses, and slices and lengths
//! that are refused.
use crate::aimed::{dirty_free_run, superseded_head, tight, unfinished_last};
use crate::call::{Call, Model};
use crate::images::{built, damage, of_history};
use crate::maker::Maker;
use crate::replayer::Replayer;
use crate::rng::Rng;
use crate::traces::{damaged, planned_log, stray_then_stop, writing_call, Log, WAYS};
use crate::ALL;
use model::{Refusing, Replayed};
use std::collections::BTreeMap;

/// At most so many positions of a trace are damaged.
const POSITIONS: u64 = 40;
/// The search for the first refused image reads it behind each entry: longer traces are only replayed.
const MOST_READ: usize = 80;

/// What every run must come to.
pub const TRACE_TAGS: [&str; 14] = [
    "stop 0",
    "stop 1",
    "stop 2",
    "stop 3",
    "stop at the first entry",
    "stop at the last entry",
    "planned, to its end",
    "refused, bad length",
    "refused, unequal slices",
    "mount refuses at 0",
    "mount refuses later",
    "mount refuses at the stop",
    "mount refuses at the end",
    "mount refuses none",
];

pub struct Traces<'s> {
    replayer: &'s dyn Replayer,
    tags: BTreeMap<String, u64>,
    pub replays: u64,
    pub searches: u64,
    pub differ: u64,
}

impl<'s> Traces<'s> {
    pub fn new(replayer: &'s dyn Replayer) -> Self {
        Traces { replayer, tags: BTreeMap::new(), replays: 0, searches: 0, differ: 0 }
    }

    pub fn tagged(&self, tag: &str) -> u64 {
        self.tags.get(tag).copied().unwrap_or(0)
    }

    fn tag(&mut self, tag: &str) {
        *self.tags.entry(tag.into()).or_default() += 1;
    }

    /// What a run has not come to.
    pub fn lacking(&self) -> Vec<&'static str> {
        TRACE_TAGS.into_iter().filter(|tag| self.tagged(tag) == 0).collect()
    }

    pub fn report(&self) -> String {
        let tags: String = self.tags.iter().map(|(tag, n)| format!("{n:>9}  {tag}\n")).collect();
        format!("{tags}{} replays, {} searches, {} differ", self.replays, self.searches, self.differ)
    }

    /// So many images, each with the traces of a few calls.
    pub fn run(&mut self, seed: u64, images: u64) {
        let mut r = Rng::new(seed);
        for _ in 0..images {
            if self.differ < super::ENOUGH {
                self.image(&mut r);
            }
        }
    }

    fn image(&mut self, r: &mut Rng) {
        let n = r.of(&[8192, 8192, 12288, 20480]);
        let mut img = match r.below(5) {
            0 | 1 => built(r, n, false),
            2 => tight(r, n),
            3 => superseded_head(r, n),
            _ => of_history(r, n, &Maker::short(30), 25),
        };
        match r.below(14) {
            0 => damage(r, &mut img),
            1 => img.truncate(r.of(&[0, 4096, 8191, 8184])),
            2 => img.fill(0xFF),
            3..=6 => unfinished_last(r, &mut img),
            7 => dirty_free_run(r, &mut img),
            _ => {}
        }
        for call in [Call::Mount(ALL), Call::Sweep(ALL)] {
            let log = planned_log(&img, &call);
            self.planned(&img, &call, &log);
        }
        let call = writing_call(r, &img);
        let log = planned_log(&img, &call);
        self.planned(&img, &call, &log);
        self.unequal(r, &img, &log);
        for i in positions(r, log.len()) {
            for (way, name) in WAYS.into_iter().enumerate() {
                let log = damaged(r, &img, &log, i, way);
                self.tag(name);
                self.both(&img, &log);
            }
            if i + 1 < log.len() {
                let log = stray_then_stop(r, &img, &log, i);
                self.both(&img, &log);
            }
        }
    }

    /// "A trace that K1 planned from step 0 on an accepted image replays to its end", and
    /// leaves the direct call's image.
    fn planned(&mut self, img: &[u8], call: &Call, log: &Log) {
        let whole = self.both(img, log);
        if log.is_empty() {
            return;
        }
        let (mut direct, mut left) = (img.to_vec(), img.to_vec());
        call.run(&mut direct);
        if !whole || self.replayer.replay(&mut left, log.trace()).is_err() || left != direct {
            self.differs(format!("a planned trace of {call:?}: {log:?}"));
        }
        self.tag("planned, to its end");
    }

    /// A slice longer or shorter by one.
    fn unequal(&mut self, r: &mut Rng, img: &[u8], log: &Log) {
        let mut log = log.clone();
        let slice = r.below(3) as usize;
        let slice = [&mut log.kinds, &mut log.addresses, &mut log.bytes].into_iter().nth(slice).expect("one of three");
        if slice.pop().is_none() || r.chance(50) {
            slice.extend([1, 1]);
        }
        self.both(img, &log);
    }

    /// A replay and a search, by the replayer and by the model. Whether the model came to the trace's end.
    fn both(&mut self, img: &[u8], log: &Log) -> bool {
        let (mut expected, mut left) = (img.to_vec(), img.to_vec());
        let told = Model.replay(&mut expected, log.trace());
        let got = self.replayer.replay(&mut left, log.trace());
        self.replays += 1;
        if told != got || left != expected {
            self.differs(format!("replay of {log:?} over {} bytes\n  model   {told:?}\n  library {got:?}", img.len()));
        }
        let told = told.expect("the model answers");
        let unequal = log.kinds.len() != log.addresses.len() || log.addresses.len() != log.bytes.len();
        match told.answer {
            0 => self.tag(["stop 0", "stop 1", "stop 2", "stop 3"][told.stop as usize]),
            _ if unequal => self.tag("refused, unequal slices"),
            _ => self.tag("refused, bad length"),
        }
        if told.stop != 0 && told.position == 0 {
            self.tag("stop at the first entry");
        }
        if told.stop != 0 && told.position + 1 == log.len() as u64 {
            self.tag("stop at the last entry");
        }
        if log.len() <= MOST_READ {
            self.search(img, log, told);
        }
        told.answer == 0 && told.stop == 0
    }

    /// `whole` is the replay of the same trace.
    fn search(&mut self, img: &[u8], log: &Log, whole: Replayed) {
        let (mut expected, mut left) = (img.to_vec(), img.to_vec());
        let told = Model.first_refused(&mut expected, log.trace());
        let got = self.replayer.first_refused(&mut left, log.trace());
        self.searches += 1;
        if told != got || left != expected {
            self.differs(format!("search in {log:?}, {} bytes\n  model   {told:?}\n  library {got:?}", img.len()));
        }
        let Refusing { answer, there, count } = told.expect("the model answers");
        match (there, count) {
            (true, 0) => self.tag("mount refuses at 0"),
            (true, _) => self.tag("mount refuses later"),
            _ if answer == 0 => self.tag("mount refuses none"),
            _ => {}
        }
        if there && count > 0 && count == whole.position {
            self.tag(if whole.stop == 0 { "mount refuses at the end" } else { "mount refuses at the stop" });
        }
    }

    fn differs(&mut self, what: String) {
        self.differ += 1;
        if self.differ <= 3 {
            println!("DIFFERS: {what}");
        }
    }
}

/// All positions of a short trace; of a long one some, the first and the last among them.
fn positions(r: &mut Rng, length: usize) -> Vec<usize> {
    let length = length as u64;
    if length <= POSITIONS {
        return (0..length as usize).collect();
    }
    let inside = (2..POSITIONS).map(|_| r.below(length) as usize);
    [0, length as usize - 1].into_iter().chain(inside).collect()
}
