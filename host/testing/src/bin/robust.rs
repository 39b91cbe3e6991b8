//! Arbitrary images: random, damaged, and built from random things.
//!   robust SEED IMAGES
//! What document 01 claims of every image is asserted: a refusal changes nothing
//! and all calls agree on it, an unsettled image is 16 for the others, no call
//! panics. What it claims of histories alone (decision 18) is counted.
use model::*;
use std::collections::BTreeMap;
use testing::call::Call;
use testing::cut;
use testing::images::{built, damage, of_history};
use testing::maker::Maker;
use testing::{argument, rng::Rng, ALL};

type Count = BTreeMap<String, u64>;

fn note(count: &mut Count, what: String) {
    *count.entry(what).or_default() += 1;
}

/// Every call but mount and format gives this refusal and leaves the image.
fn all_refuse(img: &[u8], answer: u32) {
    let name = || b"a".to_vec();
    for call in
        [Call::Put(name(), vec![1], ALL), Call::Get(name()), Call::List(0), Call::Remove(name(), ALL), Call::Sweep(ALL)]
    {
        let mut left = img.to_vec();
        assert_eq!(call.run(&mut left), Reply::refusal(answer), "{call:?}");
        assert!(left == img);
    }
}

/// A mount with allowance k. Gives the mounted image, if there is one.
fn mounted(img: &[u8], k: u64, count: &mut Count) -> Option<Vec<u8>> {
    let mut left = img.to_vec();
    let reply = mount(&mut left, k);
    note(count, format!("mount {}", reply.answer));
    if !matches!(reply.answer, 0 | 4) {
        assert!(left == img && reply.steps == 0);
        all_refuse(img, reply.answer);
        return None;
    }
    if reply.steps > 0 || reply.answer == 4 {
        all_refuse(img, 16);
    }
    if reply.answer == 4 {
        let (mut whole, mut resumed) = (img.to_vec(), left.clone());
        let (a, b) = (mount(&mut whole, ALL), mount(&mut resumed, ALL));
        if whole != resumed || (Reply { steps: 0, ..a }) != (Reply { steps: 0, ..b }) {
            note(count, format!("a cut mount and a mount: {}, another image", b.answer));
        }
        return None;
    }
    let again = mount(&mut left.clone(), ALL);
    if again != (Reply { steps: 0, ..reply }) {
        note(count, format!("a second mount: {}, {}", again.answer, why(img, &left, reply.report.head)));
        return None;
    }
    Some(left)
}

/// Why a mounted image isn't settled: a mark in the lost region, and where it was.
fn why(before: &[u8], left: &[u8], head: u64) -> &'static str {
    let marked = |img: &[u8], from: u64, to: u64| (from..to).step_by(8).any(|a| mark(img, a));
    let c = read_image(before).expect("mount accepted it");
    let x = &c.records[0];
    match c.records.get(1).filter(|y| y.marked()) {
        _ if !marked(left, floor(head), head) => "OTHER",
        None => "a mark before the only head",
        Some(y) if y.magic == START => "next START, and a mark in X's data",
        Some(_) if marked(before, x.at + 8, x.data_at) => "a mark in X's name",
        Some(_) => "a mark in X's padding",
    }
}

/// A few calls on a settled image, each followed by a mount.
fn used(r: &mut Rng, mut img: Vec<u8>, maker: &Maker, count: &mut Count) {
    for _ in 0..3 {
        let before = img.clone();
        let call = maker.call(r, &img);
        let made = cut::sometimes(r, &img, call);
        let (call, reply) = (&made.call, cut::run(&mut img, &made));
        note(count, format!("then {} {}", call.kind(), reply.answer));
        assert!(matches!(reply.answer, 0 | 4) || img == before);
        let again = mount(&mut img, ALL);
        if again.answer != 0 {
            note(count, format!("a mount after {}: {}", call.kind(), again.answer));
            return;
        }
    }
}

fn main() {
    let (seed, total) = (argument(1, 1), argument(2, 100_000));
    let mut r = Rng::new(seed);
    let mut count = Count::new();
    let maker = Maker { weights: [50, 10, 40, 0, 0, 0, 0], cut: 30, ..Maker::short(40) };
    let mut base = of_history(&mut r, 8192, &maker, 40);
    for i in 0..total {
        let n = r.of(&[8192, 12288, 16384, 20480]);
        if r.chance(5) {
            base = of_history(&mut r, n, &maker, 40);
        }
        let mut img = if i % 4 < 2 { base.clone() } else { built(&mut r, n, false) };
        if i % 4 < 2 || r.chance(25) {
            damage(&mut r, &mut img);
        }
        if r.chance(1) {
            img.iter_mut().for_each(|b| *b = r.of(&[0, 0xFF, 0x5A, 0xA5, 0xA0, 0x80, 0xA4, 0xFA, 0xFC, 0xFE]));
        }
        let k = if r.chance(30) { r.below(12) } else { ALL };
        if let Some(left) = mounted(&img, k, &mut count) {
            used(&mut r, left, &maker, &mut count);
        }
    }
    println!("seed {seed}: {total} images");
    for (what, times) in count {
        println!("{times:>9}  {what}");
    }
}
