//! A file's length (K8): the library against the model, and against its two theorems.
//!   lengths [IMAGES [SEED]]
//! Settled images, damaged ones, heads that are wrong by 8 and by a sector. On a settled
//! image with its own head the answer must be get's; and with every byte changed that the
//! walk did not look at, the answer must stay.
use model::{good_length, Extent};
use std::collections::BTreeMap;
use testing::argument;
use testing::lengths::{asked, tags, Asked, TAGS};
use testing::rng::Rng;

/// A run is given up when so many differ.
const ENOUGH: u64 = 20;

/// All bytes that lie in none of the stretches.
fn outside(n: usize, seen: &[Extent]) -> Vec<bool> {
    let mut free = vec![true; n];
    for x in seen {
        free[x.offset as usize..(x.offset + x.length) as usize].fill(false);
    }
    free
}

/// The image with other bytes wherever the walk did not look.
fn changed(r: &mut Rng, img: &[u8], seen: &[Extent]) -> Vec<u8> {
    let free = outside(img.len(), seen);
    let other = r.below(255) as u8;
    img.iter().zip(free).map(|(&b, free)| if free { b.wrapping_add(1 + other) } else { b }).collect()
}

#[derive(Default)]
struct Tally {
    calls: u64,
    differ: u64,
    answers: BTreeMap<u32, u64>,
    tags: BTreeMap<&'static str, u64>,
}

impl Tally {
    fn differs(&mut self, what: &str, a: &Asked) {
        self.differ += 1;
        println!("DIFFERS, {what}: N {}, head {}, name {:?}", a.img.len(), a.head, String::from_utf8_lossy(&a.name));
    }

    fn one(&mut self, r: &mut Rng, a: &Asked) {
        let (reply, seen) = model::length(&a.img, a.head, &a.name);
        let found = tags(a, &reply, &seen);
        self.calls += 1;
        *self.answers.entry(reply.answer).or_default() += 1;
        for &tag in &found {
            *self.tags.entry(tag).or_default() += 1;
        }
        if library::length(&a.img, a.head, &a.name) != reply {
            self.differs("library and model", a);
        }
        let get = model::get(&a.img, &a.name);
        let own = found.iter().any(|t| t.starts_with("length: settled, own head"));
        if own && (get.answer, get.name, get.extent.length) != (reply.answer, reply.name, reply.size) {
            self.differs("length and get", a);
        }
        if good_length(a.img.len() as u64) && library::length(&changed(r, &a.img, &seen), a.head, &a.name) != reply {
            self.differs("bytes that are not looked at", a);
        }
    }
}

fn main() {
    let (images, seed) = (argument(1, 12_000), argument(2, 1));
    println!("library: {}", library::path().display());
    let mut r = Rng::new(seed);
    let mut tally = Tally::default();
    for n in [0, 7, 4096, 8184, 8193] {
        tally.one(&mut r, &Asked { img: vec![0xFF; n], head: 0, name: b"a/".to_vec() });
    }
    while tally.calls < images && tally.differ < ENOUGH {
        let a = asked(&mut r, &[8192, 8192, 12288, 16384, 65536]);
        tally.one(&mut r, &a);
    }
    for (answer, n) in &tally.answers {
        println!("{n:>8}  answer {answer}");
    }
    for tag in TAGS {
        println!("{:>8}  {tag}", tally.tags.get(tag).copied().unwrap_or(0));
    }
    println!("{} calls, {} differ", tally.calls, tally.differ);
    if tally.differ > 0 || TAGS.iter().any(|t| !tally.tags.contains_key(t)) {
        std::process::exit(1);
    }
}
