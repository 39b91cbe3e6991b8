//! What was tried of plans, and what differed.
use super::tally::described;
use crate::call::Call;
use crate::planner::PLANNED;
use model::{good_length, read_image, settled, Plan, Refusal};
use std::collections::BTreeMap;
use std::fmt::Write as _;

#[derive(Default)]
pub struct Plans {
    pub images: u64,
    pub calls: u64,
    pub windows: u64,
    /// allowances to which plans were carried out
    pub carried: u64,
    pub differ: u64,
    /// where the image at hand is from
    pub source: &'static str,
    /// planned images of each source
    sources: BTreeMap<&'static str, u64>,
    answers: BTreeMap<(&'static str, u32), u64>,
    tags: BTreeMap<&'static str, u64>,
    /// the first differences
    shown: Vec<String>,
}

const SHOWN: usize = 5;
const ANSWERS: [u32; 7] = [0, 2, 5, 6, 16, 22, 28];
/// The answers of each call when it is planned: those of the direct call but 4.
pub const PLAN_ANSWERS: [(&str, &[u32]); 4] = [
    ("put", &[0, 5, 6, 16, 22, 28]),
    ("remove", &[0, 2, 5, 6, 16, 22]),
    ("sweep", &[0, 5, 6, 16, 22, 28]),
    ("mount", &[0, 5, 6, 22]),
];
/// What the windows and the images must show.
pub const PLAN_TAGS: [&str; 20] = [
    "window from step 0",
    "window from inside the list",
    "window from the end",
    "window from past the end",
    "window that ends before the list",
    "window that ends with the list",
    "window with slots left over",
    "window without a slot",
    "kinds the shortest",
    "addresses the shortest",
    "bytes the shortest",
    "an erase handed out",
    "a marker handed out",
    "nothing to do",
    "carried out in part",
    "carried out to the end",
    "settled image",
    "image that needs recovery",
    "turned image",
    "image with no room",
];

impl Plans {
    fn tag(&mut self, found: &[(&'static str, bool)]) {
        for (tag, _) in found.iter().filter(|t| t.1) {
            *self.tags.entry(tag).or_default() += 1;
        }
    }

    /// The image at hand is planned on; `new`: for the first time.
    pub fn image(&mut self, new: bool) {
        if new {
            self.images += 1;
            *self.sources.entry(self.source).or_default() += 1;
        }
    }

    pub fn call(&mut self, img: &[u8], call: &Call, plan: Result<&Plan, &Refusal>) {
        self.calls += 1;
        let answer = plan.err().map_or(0, |refusal| refusal.answer);
        *self.answers.entry((call.kind(), answer)).or_default() += 1;
        self.tag(&[("nothing to do", plan.is_ok_and(|p| p.steps.is_empty())), ("image with no room", answer == 28)]);
        if !good_length(img.len() as u64) {
            return;
        }
        if let Ok(chain) = read_image(img) {
            let quiet = settled(img, &chain);
            let found =
                [("settled image", quiet), ("image that needs recovery", !quiet), ("turned image", chain.turned)];
            self.tag(&found);
        }
    }

    /// A window of a list of so many steps, into slices of these lengths, and what was
    /// handed out.
    pub fn window(&mut self, need: u64, first: u64, lengths: [usize; 3], handed: &[[u32; 3]]) {
        self.windows += 1;
        let [kinds, addresses, bytes] = lengths;
        let shortest = kinds.min(addresses).min(bytes);
        let (some, end) = (!handed.is_empty(), first.saturating_add(handed.len() as u64));
        let marker = |w: &[[u32; 3]]| matches!(w, [[_, _, 0xFA], [_, _, 0x5A], [_, _, 0xF0]]);
        self.tag(&[
            ("window from step 0", some && first == 0),
            ("window from inside the list", some && first > 0),
            ("window from the end", need > 0 && first == need),
            ("window from past the end", need > 0 && first > need),
            ("window that ends before the list", some && end < need),
            ("window that ends with the list", some && end == need && shortest == handed.len()),
            ("window with slots left over", some && shortest > handed.len()),
            ("window without a slot", need > first && shortest == 0),
            ("kinds the shortest", some && kinds < addresses && kinds < bytes),
            ("addresses the shortest", some && addresses < kinds && addresses < bytes),
            ("bytes the shortest", some && bytes < kinds && bytes < addresses),
            ("an erase handed out", handed.iter().any(|step| step[0] == 2)),
            ("a marker handed out", handed.windows(3).any(marker)),
        ]);
    }

    /// The first k steps of so many were carried out.
    pub fn carried(&mut self, k: u64, need: u64) {
        self.carried += 1;
        self.tag(&[("carried out in part", k < need), ("carried out to the end", need > 0 && k == need)]);
    }

    pub fn differs(&mut self, call: &Call, img: &[u8], what: String) {
        self.differ += 1;
        if self.shown.len() < SHOWN {
            self.shown.push(format!("DIFFERS: plan of {}, N = {}, {what}", described(call), img.len()));
        }
    }

    pub fn tagged(&self, tag: &str) -> u64 {
        self.tags.get(tag).copied().unwrap_or(0)
    }

    pub fn answered(&self, kind: &'static str, answer: u32) -> u64 {
        self.answers.get(&(kind, answer)).copied().unwrap_or(0)
    }

    /// The differences, the planned calls by answer, the windows and images by what they
    /// show, and the sum.
    pub fn report(&self) -> String {
        let mut s = String::new();
        for shown in &self.shown {
            writeln!(s, "{shown}").unwrap();
        }
        write!(s, "{:8}", "planned").unwrap();
        for a in ANSWERS {
            write!(s, "{a:>10}").unwrap();
        }
        for kind in PLANNED {
            write!(s, "\n{kind:8}").unwrap();
            for a in ANSWERS {
                write!(s, "{:>10}", self.answered(kind, a)).unwrap();
            }
        }
        s.push('\n');
        for (tag, times) in &self.tags {
            writeln!(s, "{times:>9} plans: {tag}").unwrap();
        }
        for (source, images) in &self.sources {
            writeln!(s, "{images:>9} images planned on: {source}").unwrap();
        }
        let sum = [(self.images, "images"), (self.calls, "calls planned"), (self.windows, "windows")];
        for (count, what) in sum {
            write!(s, "{count} {what}, ").unwrap();
        }
        write!(s, "{} times carried out, {} differ", self.carried, self.differ).unwrap();
        s
    }
}
