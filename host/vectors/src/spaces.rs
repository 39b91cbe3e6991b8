//! Vectors of request K3: the four numbers of the image that mount, put or sweep leaves.
use crate::collect::{Collection, EACH};
use crate::emit::{equation, pieces, Vector};
use model::*;
use testing::aimed::{superseded, tight, unfinished_last};
use testing::call::Call;
use testing::compare::name_for;
use testing::images::{built, of_history};
use testing::maker::Maker;
use testing::rng::Rng;
use testing::ALL;

/// How many vectors of each call.
const OF_EACH: u64 = 24;
/// A program step costs antt as much as its address: no long step lists.
const MOST_STEPS: u64 = 110;
/// No byte: the call is not cut inside one.
const NO_BYTE: u64 = 256;
const MOST_TEXT: usize = 7_000;
/// What the vectors must hold.
pub const SPACE_TAGS: [&str; 8] = [
    "space: marker",
    "space: marker, bytes behind it",
    "space: new marker",
    "space: turn at N",
    "space: below the head",
    "space: not turned",
    "space: dead file",
    "space: refused",
];
pub const KINDS: [&str; 3] = ["space of mount", "space of put", "space of sweep"];

fn image(r: &mut Rng) -> Vec<u8> {
    let n = r.of(&[8192, 8192, 12288]);
    let maker = if r.chance(60) { Maker::with_markers(r) } else { Maker::short(20) };
    let mut img = match r.below(4) {
        0 => built(r, n, true),
        1 => tight(r, n),
        _ => of_history(r, n, &maker, 50),
    };
    match r.below(4) {
        0 => superseded(r, &mut img),
        1 => unfinished_last(r, &mut img),
        _ => (),
    }
    img
}

/// Whether the call made the marker, or it stood there before.
fn marker_of(img: &[u8]) -> Option<u64> {
    read_image(img).ok().and_then(|c| c.marker)
}

/// What the numbers show.
fn tags(before: &[u8], after: &[u8], answer: u32, s: Space) -> Vec<&'static str> {
    if answer != 0 {
        return vec!["space: refused"];
    }
    let Ok(c) = read_image(after) else { return Vec::new() };
    let n = before.len() as u64;
    let found = [
        c.marker.is_some(),
        c.marker.is_some_and(|m| m + 8 < n),
        c.marker.is_some() && marker_of(before) != c.marker,
        c.turned && c.marker.is_none(),
        c.head > floor(c.head),
        !c.turned,
        c.records.iter().any(|x| !x.live && x.name_len > 0),
        false,
    ];
    assert_eq!(s.sum(), n);
    SPACE_TAGS.into_iter().zip(found).filter(|t| t.1).map(|t| t.0).collect()
}

fn try_call(c: &mut Collection, img: &[u8], kind: &'static str, call: &Call) {
    let mut after = img.to_vec();
    let reply = call.run(&mut after);
    let tags = tags(img, &after, reply.answer, reply.space);
    let lacks = |tag: &&str| c.count(&format!("tag {tag}")) < 2 * EACH;
    let refused = reply.answer != 0;
    let wanted = !refused && c.count(&format!("{kind} 0")) < OF_EACH || tags.iter().any(lacks);
    if !wanted || reply.steps > MOST_STEPS || pieces(img).len() > MOST_TEXT {
        return;
    }
    let (function, text) = equation(img, call, NO_BYTE, &reply, &after);
    c.add(Vector { function, text, kind, answer: reply.answer, tags, source: "space" });
}

/// What has too few vectors.
pub fn lacking(c: &Collection) -> Vec<String> {
    let tags = SPACE_TAGS.iter().map(|t| format!("tag {t}"));
    tags.chain(KINDS.iter().map(|k| format!("{k} 0"))).filter(|w| c.count(w) < EACH).collect()
}

pub fn add(c: &mut Collection) {
    let mut r = Rng::new(5);
    for _ in 0..1500 {
        let mut img = image(&mut r);
        try_call(c, &img, KINDS[0], &Call::Mount(ALL));
        mount(&mut img, ALL);
        let name = name_for(&mut r, &img);
        let data = vec![0x33; r.of(&[0, 3, 24, 40])];
        try_call(c, &img, KINDS[1], &Call::Put(name, data, ALL));
        try_call(c, &img, KINDS[2], &Call::Sweep(ALL));
    }
}
