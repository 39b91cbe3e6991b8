//! Images of files whose names stand at the edges of the name rule (K5), with calls of such names.
use super::arbitrary::{any_length, every_call};
use super::Comparison;
use crate::aimed::chain_of;
use crate::call::{Call, Store};
use crate::names::{edge_name, stored_name, EDGES};
use crate::rng::Rng;
use model::{read_image, COMMITTED, DELETED, MIGRATING};

/// An image of such files, now and then with a byte of a name changed, and every call; then names that are given, at the
/// edges too, and those of files with a byte changed.
pub fn any<S: Store>(c: &mut Comparison<S>, r: &mut Rng) {
    let count = r.of(&[1, 1, 2, 3, 6]);
    let names: Vec<Vec<u8>> = (0..count).map(|_| stored_name(r)).collect();
    let files: Vec<(Vec<u8>, u8)> =
        names.iter().map(|name| (name.clone(), r.of(&[COMMITTED, COMMITTED, MIGRATING, DELETED]))).collect();
    let n = any_length(r);
    let Some(mut img) = chain_of(r, n, &files) else { return };
    if r.chance(25) {
        edged(r, &mut img);
    }
    c.image("names at the edges");
    every_call(c, r, &img, &names);
    let mut near = r.of(&names);
    let place = r.of(&[0, near.len() - 1, near.len() / 2]);
    near[place] = r.of(&EDGES);
    for name in [edge_name(r), near] {
        c.call(&img, &Call::Get(name.clone()));
        c.call(&img, &Call::Put(name.clone(), vec![0x44; 3], r.below(20)));
        c.call(&img, &Call::Remove(name, r.below(2)));
    }
}

/// The first, the last or an inner byte of a file's name becomes one of EDGES.
fn edged(r: &mut Rng, img: &mut [u8]) {
    let Ok(c) = read_image(img) else { return };
    let named: Vec<(u64, u64)> = c.live().map(|x| (x.at + 8, x.name_len)).collect();
    if !named.is_empty() {
        let (at, length) = r.of(&named);
        let place = r.of(&[0, length - 1, length / 2]);
        img[(at + place) as usize] = r.of(&EDGES);
    }
}
