//! Histories, and images that no history need make.
use super::writing::{name_for, name_from};
use super::{colliding, naming, Comparison};
use crate::aimed::*;
use crate::call::{formatted, Call, Store};
use crate::images::{built, damage, of_history};
use crate::maker::Maker;
use crate::names::{bad_names, edge_name, good_names};
use crate::odd;
use crate::rng::Rng;
use crate::ALL;
use model::mount;

fn any_maker(r: &mut Rng) -> Maker {
    let maker = match r.below(3) {
        0 => Maker::rich(r),
        1 => Maker::full_sectors(r),
        _ => Maker::short(30),
    };
    maker.sometimes_colliding(r, 20)
}

pub fn any_length(r: &mut Rng) -> usize {
    r.of(&[8192, 8192, 8192, 8192, 12288, 12288, 12288, 16384, 16384, 20480, 65536])
}

/// A history of so many calls, with cuts; some calls are tried at every allowance.
pub fn history<S: Store>(c: &mut Comparison<S>, r: &mut Rng, calls: u64) {
    let maker = any_maker(r);
    let mut img = formatted(any_length(r));
    for _ in 0..calls {
        c.image("history");
        if r.chance(2) {
            let whole = maker.whole_call(r, &img);
            c.cuts(r, &img, &whole);
        }
        let call = maker.call(r, &img);
        let after = c.call(&img, &call).1;
        img = super::inside(r, &img, call).unwrap_or(after);
        let name = name_for(r, &img);
        c.call(&img, &Call::Get(name));
        c.call(&img, &Call::List(r.below(8)));
    }
}

/// One image of any source, with every call.
pub fn any<S: Store>(c: &mut Comparison<S>, r: &mut Rng) {
    if r.chance(10) {
        return colliding::any(c, r);
    }
    if r.chance(8) {
        return naming::any(c, r);
    }
    let n = any_length(r);
    let (source, img) = match r.below(9) {
        0 => ("damaged", damaged(r, n)),
        1 => ("built", built(r, n, false)),
        2 => ("built, damaged", damaged_chain(r, n)),
        3 | 4 => ("odd", odd::chain(r, n)),
        5 => ("random bytes", odd::noise(r, n)),
        6 => ("dirty free run", dirty(r, n)),
        7 => ("unfinished", with_last(r, n)),
        _ => ("marks at the head", superseded_or_marked(r, n)),
    };
    c.image(source);
    every_call(c, r, &img, &good_names());
}

fn damaged(r: &mut Rng, n: usize) -> Vec<u8> {
    let maker = any_maker(r);
    let mut img = of_history(r, n, &maker, 20);
    damage(r, &mut img);
    img
}

fn damaged_chain(r: &mut Rng, n: usize) -> Vec<u8> {
    let mut img = built(r, n, false);
    damage(r, &mut img);
    img
}

/// Settled or not, from a history or at an edge.
fn base(r: &mut Rng, n: usize) -> Vec<u8> {
    if r.chance(50) {
        return tight(r, n);
    }
    let maker = any_maker(r);
    of_history(r, n, &maker, 25)
}

fn dirty(r: &mut Rng, n: usize) -> Vec<u8> {
    let mut img = base(r, n);
    dirty_free_run(r, &mut img);
    img
}

fn with_last(r: &mut Rng, n: usize) -> Vec<u8> {
    let mut img = base(r, n);
    mount(&mut img, ALL);
    match r.below(4) {
        0 => drop(behind_torn(r, &mut img)),
        1 => drop(reserved_byte(r, &mut img)),
        _ => unfinished_last(r, &mut img),
    }
    img
}

fn superseded_or_marked(r: &mut Rng, n: usize) -> Vec<u8> {
    if r.chance(50) {
        return superseded_head(r, n);
    }
    let mut img = base(r, n);
    superseded(r, &mut img);
    img
}

/// Mount whole, cut and not at all; then the others, on the image and on what a
/// whole mount left. Files are called by names that are there and by these.
pub fn every_call<S: Store>(c: &mut Comparison<S>, r: &mut Rng, img: &[u8], names: &[Vec<u8>]) {
    let (reply, mounted) = c.call(img, &Call::Mount(ALL));
    c.call(img, &Call::Mount(r.below(12)));
    others(c, r, img, names);
    if reply.answer == 0 && reply.steps > 0 {
        // decision 18: such an image may be refused again
        c.call(img, &Call::Mount(reply.steps - 1));
        c.call(&mounted, &Call::Mount(0));
        others(c, r, &mounted, names);
    }
}

fn others<S: Store>(c: &mut Comparison<S>, r: &mut Rng, img: &[u8], names: &[Vec<u8>]) {
    let name = match r.below(20) {
        0 => r.of(&bad_names()),
        1 => edge_name(r),
        _ => name_from(r, img, names),
    };
    let allowance = if r.chance(50) { ALL } else { r.below(60) };
    let length = r.of(&[0, 1, 8, 31, 500]);
    let content = Maker::short(20).content(r, length);
    for call in [
        Call::Get(name.clone()),
        Call::List(r.below(5)),
        Call::Put(name.clone(), content, allowance),
        Call::Remove(name, allowance),
        Call::Sweep(allowance),
    ] {
        c.call(img, &call);
    }
    if r.chance(3) {
        c.call(img, &Call::Format(r.below(16)));
    }
}
