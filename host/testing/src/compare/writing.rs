//! Put, remove and sweep at many allowances, on settled images whose room is
//! nearly used up.
use super::fixed::of_length;
use super::Comparison;
use crate::aimed::tight;
use crate::call::{Call, Store};
use crate::images::of_history;
use crate::maker::Maker;
use crate::names::good_names;
use crate::rng::Rng;
use crate::ALL;
use model::*;

/// A settled image: near N or floor(h), or from a history.
pub fn settled_image(r: &mut Rng) -> Vec<u8> {
    let n = r.of(&[8192, 8192, 12288, 16384]);
    let maker = if r.chance(50) { Maker::rich(r) } else { Maker::full_sectors(r) };
    let mut img = if r.chance(50) { tight(r, n) } else { of_history(r, n, &maker, 30) };
    mount(&mut img, ALL);
    img
}

/// The content lengths at which the place of a put changes, and one byte more: the
/// last that ends at N, the last without a marker, the last that has room.
pub fn edges(img: &[u8], name: &[u8]) -> Vec<u64> {
    let Ok(c) = read_image(img) else { return vec![] };
    let place = |d| put_room(img, &c, name, d).map(|p| (p.at, p.marker));
    let lengths = (0..img.len() as u64).step_by(8);
    lengths.filter(|&d| place(d) != place(d + 1)).flat_map(|d| [d, d + 1]).collect()
}

/// Every cut of puts at the edges of their places, of a remove and of a sweep.
pub fn settled<S: Store>(c: &mut Comparison<S>, r: &mut Rng) {
    let img = settled_image(r);
    c.image("settled, at an edge");
    let name = name_for(r, &img);
    let mut lengths = edges(&img, &name);
    lengths.extend([0, r.below(40), r.below(600)]);
    for d in lengths {
        let content = r.of(&of_length(d as usize));
        c.call(&img, &Call::Put(name.clone(), content.clone(), ALL));
        if r.chance(25) {
            c.cuts(r, &img, &Call::Put(name.clone(), content, ALL));
        }
    }
    c.cuts(r, &img, &Call::Remove(name, ALL));
    c.cuts(r, &img, &Call::Sweep(ALL));
}

/// The name of a file there, or any.
pub fn name_for(r: &mut Rng, img: &[u8]) -> Vec<u8> {
    name_from(r, img, &good_names())
}

/// The name of a file there, or one of these.
pub fn name_from(r: &mut Rng, img: &[u8], names: &[Vec<u8>]) -> Vec<u8> {
    let live: Vec<Vec<u8>> = read_image(img).map_or(vec![], |c| c.live().map(|x| x.name(img).to_vec()).collect());
    if live.is_empty() || r.chance(40) {
        r.of(names)
    } else {
        r.of(&live)
    }
}
