//! The place functions by themselves, and the room rule (K6), at both sides of a length at
//! which its answer changes.
use crate::collect::{Collection, EACH};
use crate::emit::{place_equation, room_equation, Vector};
use model::*;
use testing::compare::name_for;
use testing::images::of_history;
use testing::maker::{Lengths, Maker};
use testing::rng::Rng;
use testing::tags::{of_room, ROOM_TAGS};
use testing::ALL;

const ROOMS: u64 = 160;
const MOST_RECORDS: usize = 60;
/// What the vectors need besides the tags of `of_room`.
pub const ROOM_STATES: [&str; 5] =
    ["room: N 16384", "room: replacing", "room: new one there", "room: others there", "room: turned"];

/// Single sizes: a reading never gives some places, as T = N
/// before the turn with floor(h) > 0, that the room rule passes through.
pub fn places(r: &mut Rng, c: &mut Collection) {
    for _ in 0..60 {
        let length = r.of(&[8192, 12288]);
        let head = r.below(length / 8) * 8;
        let turned = r.chance(40) && floor(head) > 0;
        let end = if turned { floor(head) } else { length };
        let tail = if r.chance(30) { end } else { r.below(end / 8) * 8 };
        let size = r.of(&[16, 24, end - tail, end - tail + 8, floor(head), floor(head) + 8]).max(16);
        let mut tags = vec![if turned { "place, turned" } else { "place, not turned" }];
        if !turned && tail == length {
            tags.push("place, T = N before the turn");
        }
        let text = place_equation(Place { head, tail, turned, length }, size);
        c.add(Vector { function: "check_place", text, kind: "place", answer: 0, tags, source: "built" });
    }
}

/// What a history leaves whose room is nearly used up.
fn settled(r: &mut Rng) -> Vec<u8> {
    let maker = match r.below(4) {
        0 => Maker::rich(r),
        1 => Maker::cut_sweeps(r),
        2 => Maker { lengths: Lengths::Uniform(r.of(&[256, 400, 800])), ..Maker::tiny_files(r) },
        _ => Maker::full_sectors(r),
    };
    let n = r.of(&[8192, 8192, 12288, 16384]);
    let mut img = of_history(r, n, &maker, 60);
    mount(&mut img, ALL);
    img
}

/// The state, and which part of the rule decides.
fn tags(img: &[u8], c: &Chain, name: &[u8], d: u64) -> Vec<&'static str> {
    let s = size_of(name.len() as u64, d);
    let at = c.place(img.len() as u64).fit(s).map(|p| p.at);
    let others = c.live().any(|x| c.in_head_sector(x.at) && x.name(img) != name);
    let found = [
        img.len() == 16384,
        c.find_live(img, name).is_some(),
        at.is_some_and(|at| c.in_head_sector(at)),
        others,
        c.turned,
    ];
    let states = ROOM_STATES.into_iter().zip(found).filter(|t| t.1).map(|t| t.0);
    states.chain(of_room(img, c, name, d)).collect()
}

/// So many vectors, and then more until each part of the rule decides in some.
pub fn add(r: &mut Rng, c: &mut Collection) {
    let lacks = |c: &Collection, tag: &str| c.count(&format!("tag {tag}")) < EACH;
    while c.count("source room") < ROOMS || ROOM_TAGS.iter().any(|t| lacks(c, t)) {
        let img = settled(r);
        let Ok(chain) = read_image(&img) else { continue };
        let name = name_for(r, &img);
        let room = |d| put_room(&img, &chain, &name, d).is_some();
        let edge = (0..img.len() as u64).step_by(8).find(|&d| room(d) && !room(d + 1));
        let Some(edge) = edge.filter(|_| chain.records.len() <= MOST_RECORDS) else { continue };
        for d in [edge, edge + 1] {
            let tags = tags(&img, &chain, &name, d);
            let text = room_equation(&img, &chain, &name, d);
            let wanted = c.count("source room") < ROOMS || tags.iter().any(|t| lacks(c, t));
            if wanted {
                c.add(Vector { function: "check_room", text, kind: "room", answer: 0, tags, source: "room" });
            }
        }
    }
}
