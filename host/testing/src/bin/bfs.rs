//! Small-scope search: sectors of 64 bytes, all histories up to equal images.
//!   bfs SECTORS MAXSTATES [CONTENTS [one|two [deep]]]
//! CONTENTS: digits that choose from the contents below. In every settled state
//! every put, remove and sweep at every cut, between two steps and inside the next byte
//! (every subset of up to four bits, else a sample), and after it the mount, at every
//! cut too (of puts by sampling). Demand 3 is checked on each, and K6's promise after
//! each put. Settled images that differ in dead bytes alone, but FF and marks, count as
//! one state.
use model::{byte, floor, mark, read_image, SECTOR};
use std::collections::{HashSet, VecDeque};
use std::hash::{DefaultHasher, Hash, Hasher};
use testing::call::{Call, Model};
use testing::cut::{self, Made};
use testing::facts::Facts;
use testing::ledger::World;
use testing::progress::Progress;
use testing::{argument, rng::Rng, ALL};

/// A settled state and the way to it.
struct State {
    world: World,
    way: usize,
}

struct Search {
    seen: HashSet<u64>,
    queue: VecDeque<State>,
    /// the calls that led to each state: the one before it, and the last call
    ways: Vec<(usize, String)>,
    facts: Facts,
    progress: Progress,
    most: usize,
    r: Rng,
    cuts: u64,
    inside: u64,
    mount_cuts: u64,
}

fn key(img: &[u8], w: &World) -> u64 {
    let mut h = DefaultHasher::new();
    img.hash(&mut h);
    w.ledger.files.hash(&mut h);
    h.finish()
}

/// In [from, to) every byte becomes 1, but FF and the two bytes of a mark.
fn flatten(m: &mut [u8], img: &[u8], from: u64, to: u64) {
    for a in from..to {
        let pair = a - a % 8;
        let marked = a < pair + 2 && pair + 1 < to && mark(img, pair);
        if byte(img, a) != 0xFF && !marked {
            m[a as usize] = 1;
        }
    }
}

/// A settled image with one value for dead bytes but FF and marks: a dead record's
/// status, the letters of its name, its data, and the lost bytes before the head.
fn plain(img: &[u8]) -> Vec<u8> {
    let mut m = img.to_vec();
    let Ok(c) = read_image(img) else { return m };
    for x in c.records.iter().filter(|x| !x.live) {
        m[x.at as usize + 2] = 0;
        m[x.at as usize + 8..(x.at + 8 + x.name_len) as usize].fill(b'x');
        flatten(&mut m, img, x.data_at, x.data_at + x.data_len);
    }
    flatten(&mut m, img, floor(c.head), c.head);
    m
}

fn contents() -> Vec<Vec<u8>> {
    vec![
        vec![],
        vec![0xA5, 0x5A, 0xFC, 0xFF, 0x20, 0x00, 0x00, 0x00],
        vec![0xA0, 0x5A, 0x00, 0xFF, 0, 0, 0, 0, 0x00, 0x5A],
        vec![0x00, 0x5A, 0x00, 0xFF, 0, 0, 0, 0, 0x61, 0x00, 0xFF, 0xFF, 0xFF, 0xFF, 0xFF, 0xFF, 0xA0, 0x5A],
        vec![0xA5, 0x5A, 0x00, 0xFF, 0, 0, 0, 0, 0x61, 0x00, 0xA5, 0x5A, 0xFF, 0xFF, 0xFF, 0xFF, 0xA5, 0xFF, 0xFF],
        vec![0xA5, 0xFF, 0xFF, 0xFF, 0xFF, 0xFF, 0xFF, 0xFF, 0xFA, 0x5A, 0xF0, 0xFF],
        vec![0x80, 0x5A, 0x00, 0xFF, 0, 0, 0, 0, 0x80, 0x5A],
        vec![0xA4, 0x5A, 0xFC, 0xFF, 0x08, 0, 0, 0, 0x61, 0x00, 0xFF, 0xFF, 0xFF, 0xFF, 0xFF, 0xFF, 0xA1, 0x5A],
        vec![0xA1, 0x5A, 0x7E, 0xFF, 0, 0, 0, 0, 0x00, 0x5A, 0xFC, 0xFF, 0x08, 0, 0, 0],
    ]
}

impl Search {
    /// A violation ends the search, with the way to it.
    fn fail(&self, way: usize, call: &str, what: &str) -> ! {
        println!("VIOLATION {what} after {call}");
        let mut at = way;
        while at != 0 {
            println!("   {}", self.ways[at].1);
            at = self.ways[at].0;
        }
        std::process::exit(1)
    }

    fn checked(&mut self, w: &World, way: usize, label: &str) -> Vec<u8> {
        self.facts.look(&w.img);
        w.check(&Model).unwrap_or_else(|e| self.fail(way, label, &e))
    }

    /// One call at every cut; each mounted image is a new state.
    fn every_cut(&mut self, s: &State, call: &Call) {
        for k in 0..=call.need(&s.world.img) {
            let call = call.with_allowance(k);
            let inside = cut::next(&s.world.img, &call).map_or(vec![], |next| next.values(&mut self.r));
            for held in [None].into_iter().chain(inside.into_iter().map(Some)) {
                self.one_cut(s, &Made { call: call.clone(), held });
            }
        }
    }

    fn one_cut(&mut self, s: &State, made: &Made) {
        let label = format!("{made:02x?}");
        let mut w = s.world.clone();
        if let Err(e) = w.step_with_sweeps(&Model, made, &mut self.progress) {
            self.fail(s.way, &label, &e);
        }
        let here = key(&w.img, &w);
        if self.seen.contains(&here) {
            return;
        }
        self.cuts += 1;
        self.inside += made.held.is_some() as u64;
        let mounted = self.checked(&w, s.way, &label);
        if w.img != mounted && (matches!(made.call, Call::Sweep(_)) || here % 16 == 0) {
            self.every_mount_cut(&w, s.way, &label);
        }
        let next = World { img: mounted, ledger: w.ledger };
        if self.seen.len() < self.most && self.seen.insert(key(&plain(&next.img), &next)) {
            self.ways.push((s.way, label));
            self.queue.push_back(State { world: next, way: self.ways.len() - 1 });
        }
    }

    /// A mount after a cut mount keeps demand 3. (Since a byte may be cut inside, it need
    /// not leave the bytes that a whole one leaves.)
    fn every_mount_cut(&mut self, w: &World, way: usize, label: &str) {
        for k in 0..Call::Mount(0).need(&w.img) {
            let call = Call::Mount(k);
            let inside = cut::next(&w.img, &call).and_then(|next| next.value(&mut self.r));
            for held in [None].into_iter().chain(inside.map(Some)) {
                let mut cut = w.clone();
                let label = format!("{label}, mount cut at {k}, held {held:02x?}");
                if let Err(e) = cut.step(&Model, &Made { call: call.clone(), held }) {
                    self.fail(way, &label, &e);
                }
                self.mount_cuts += 1;
                self.checked(&cut, way, &label);
            }
        }
    }
}

fn main() {
    let word = |i| std::env::args().nth(i).unwrap_or_default();
    let n = (SECTOR * argument(1, 3)) as usize;
    let chosen = Some(word(3)).filter(|w| !w.is_empty()).unwrap_or("012".into());
    let data: Vec<Vec<u8>> = chosen.bytes().map(|b| contents()[(b - b'0') as usize].clone()).collect();
    let names: &[&[u8]] = if word(4) == "one" { &[b"a"] } else { &[b"a", b"b"] };
    let deep = word(5) == "deep";
    let mut calls = vec![Call::Sweep(ALL)];
    for name in names {
        calls.extend(data.iter().map(|d| Call::Put(name.to_vec(), d.clone(), ALL)));
        calls.push(Call::Remove(name.to_vec(), ALL));
    }
    let first = State { world: World::new(n), way: 0 };
    let mut search = Search {
        seen: HashSet::from([key(&plain(&first.world.img), &first.world)]),
        queue: VecDeque::from([first]),
        ways: vec![(0, "format".into())],
        facts: Facts::default(),
        progress: Progress::default(),
        most: argument(2, 100_000) as usize,
        r: Rng::new(1),
        cuts: 0,
        inside: 0,
        mount_cuts: 0,
    };
    let mut states = 0u64;
    while !search.queue.is_empty() {
        let i = if deep { search.r.below(search.queue.len() as u64) as usize } else { 0 };
        // breadth first takes the oldest; deep takes any
        let state = if deep { search.queue.swap_remove_back(i) } else { search.queue.pop_front() };
        let state = state.expect("the queue has one");
        states += 1;
        for call in &calls {
            search.every_cut(&state, call);
        }
    }
    let whole = if search.seen.len() >= search.most { "stopped at the limit" } else { "whole" };
    println!(
        "N {n}: {states} settled states ({whole}), {} cuts, {} of them inside a byte, {} cut mounts: no violation",
        search.cuts, search.inside, search.mount_cuts
    );
    println!("{}", search.progress);
    println!("facts broken (not demand 3): {:?}", search.facts.broken);
}
