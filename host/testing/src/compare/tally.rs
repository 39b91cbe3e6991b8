//! What a comparison did, and what differed.
use crate::call::Call;
use crate::colliding::Collisions;
use crate::tags;
use model::Reply;
use std::collections::BTreeMap;
use std::fmt::Write as _;

#[derive(Default)]
pub struct Tally {
    pub images: u64,
    pub calls: u64,
    pub differ: u64,
    /// the images of each source
    pub sources: BTreeMap<&'static str, u64>,
    /// the images that were made of colliding names
    pub collisions: Collisions,
    answers: BTreeMap<(&'static str, u32), u64>,
    /// calls by what they show
    tags: BTreeMap<&'static str, u64>,
    /// the first differences
    shown: Vec<String>,
}

const SHOWN: usize = 5;
const ANSWERS: [u32; 8] = [0, 2, 4, 5, 6, 16, 22, 28];

impl Tally {
    pub fn count(&mut self, img: &[u8], call: &Call, reply: &Reply, after: &[u8]) {
        self.calls += 1;
        *self.answers.entry((call.kind(), reply.answer)).or_default() += 1;
        for tag in tags::of(img, call, reply, after) {
            *self.tags.entry(tag).or_default() += 1;
        }
    }

    pub fn tagged(&self, tag: &str) -> u64 {
        self.tags.get(tag).copied().unwrap_or(0)
    }

    pub fn answered(&self, kind: &'static str, answer: u32) -> u64 {
        self.answers.get(&(kind, answer)).copied().unwrap_or(0)
    }

    pub fn differs(&mut self, call: &Call, img: &[u8], model: (&Reply, &[u8]), store: (&Result<Reply, String>, &[u8])) {
        self.differ += 1;
        if self.shown.len() < SHOWN {
            let byte = model.1.iter().zip(store.1).position(|(a, b)| a != b);
            let bytes = byte.map_or("the images agree".into(), |a| {
                format!("at {a}: before {:02x}, model {:02x}, library {:02x}", img[a], model.1[a], store.1[a])
            });
            let call = described(call);
            self.shown.push(format!(
                "DIFFERS: {call}, N = {}\n  model   {:?}\n  library {:?}\n  {bytes}",
                img.len(),
                model.0,
                store.0
            ));
        }
    }

    /// The differences, the calls by answer, the images by source and by colliding names, and the sum.
    pub fn report(&self) -> String {
        let mut s = String::new();
        for shown in &self.shown {
            writeln!(s, "{shown}").unwrap();
        }
        write!(s, "{:8}", "answer").unwrap();
        for a in ANSWERS {
            write!(s, "{a:>10}").unwrap();
        }
        for kind in Call::KINDS {
            write!(s, "\n{kind:8}").unwrap();
            for a in ANSWERS {
                write!(s, "{:>10}", self.answered(kind, a)).unwrap();
            }
        }
        s.push('\n');
        for (tag, calls) in &self.tags {
            writeln!(s, "{calls:>9} calls: {tag}").unwrap();
        }
        for (source, images) in &self.sources {
            writeln!(s, "{images:>9} images: {source}").unwrap();
        }
        write!(s, "{}", self.collisions).unwrap();
        write!(s, "{} images, {} calls, {} differ", self.images, self.calls, self.differ).unwrap();
        s
    }
}

/// The call; of a put's content the length alone, which may be anything.
pub fn described(call: &Call) -> String {
    match call {
        Call::Put(name, data, k) => format!("Put({name:02x?}, {} bytes, {k})", data.len()),
        other => format!("{other:02x?}"),
    }
}
