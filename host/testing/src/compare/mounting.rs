//! Mount at many allowances, on images that cut calls left; then cut again, then
//! to the end.
use super::writing::{edges, name_for, settled_image};
use super::Comparison;
use crate::call::{Call, Store};
use crate::maker::{Contents, Lengths, Maker};
use crate::rng::Rng;
use crate::ALL;

/// So many of the images that the cuts of one call left are mounted.
const MOUNTED: usize = 24;

/// A put, most often a short one or at an edge of its place, or a sweep.
fn cut_call(r: &mut Rng, img: &[u8]) -> Call {
    if r.chance(50) {
        return Call::Sweep(ALL);
    }
    let name = name_for(r, img);
    let edge = edges(img, &name);
    let length = if !edge.is_empty() && r.chance(50) { r.of(&edge) } else { r.below(30) };
    let contents = r.of(&[Contents::Marks, Contents::FalseRecords, Contents::RecordMarks, Contents::Plain]);
    let maker = Maker { contents, lengths: Lengths::Short { big: 0 }, ..Maker::short(0) };
    Call::Put(name, maker.content(r, length), ALL)
}

pub fn unfinished<S: Store>(c: &mut Comparison<S>, r: &mut Rng) {
    let img = settled_image(r);
    let call = cut_call(r, &img);
    c.image("settled, then cut");
    let mut left = c.cuts(r, &img, &call);
    while left.len() > MOUNTED {
        let i = r.below(left.len() as u64) as usize;
        left.swap_remove(i);
    }
    for cut in left {
        c.image("a call was cut");
        others(c, r, &cut);
        mounts(c, r, &cut, 12, 3);
    }
}

/// A mount at every allowance; on what the first of these cuts leave, again; and
/// on what the first of those leave, to the end.
pub fn mounts<S: Store>(c: &mut Comparison<S>, r: &mut Rng, cut: &[u8], twice: usize, thrice: usize) {
    for cut in c.cuts(r, cut, &Call::Mount(ALL)).into_iter().skip(1).take(twice) {
        c.image("a call and a mount were cut");
        for cut in c.cuts(r, &cut, &Call::Mount(ALL)).into_iter().skip(1).take(thrice) {
            c.image("a call and two mounts were cut");
            c.call(&cut, &Call::Mount(ALL));
        }
    }
}

/// What the other calls say of an image that wants a mount.
fn others<S: Store>(c: &mut Comparison<S>, r: &mut Rng, img: &[u8]) {
    let name = name_for(r, img);
    c.call(img, &Call::Get(name.clone()));
    c.call(img, &Call::List(0));
    let writing = [Call::Sweep(ALL), Call::Put(name.clone(), vec![5], ALL), Call::Remove(name, ALL)];
    c.call(img, &r.of(&writing));
}
