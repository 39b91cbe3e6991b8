//! Images made of names that collide in the library's table: settled ones, and ones with two records of a name.
use super::arbitrary::{any_length, every_call};
use super::Comparison;
use crate::aimed::chain_of;
use crate::call::Store;
use crate::colliding::Kind;
use crate::names::good_names;
use crate::rng::Rng;
use model::{bits, COMMITTED, MIGRATING};

type File = (Vec<u8>, u8);

/// An image of such names, with every call, of these names and of some that aren't there.
pub fn any<S: Store>(c: &mut Comparison<S>, r: &mut Rng) {
    let (kind, count) = (r.of(&Kind::ALL), r.of(&[2, 3, 5, 12, 30, 150]));
    let names = kind.names(r, count);
    let mut files: Vec<File> =
        names.iter().map(|name| (name.clone(), r.of(&[COMMITTED, COMMITTED, MIGRATING]))).collect();
    some_left_out(r, &mut files);
    let source = with_twins(r, &mut files);
    let lengths = [any_length(r), 16384, 65536];
    let img = lengths.into_iter().find_map(|n| chain_of(r, n, &files)).expect("150 files and their head fit");
    c.image(source);
    c.tally.collisions.note(bits::colliding(files.iter().map(|(name, _)| &name[..])));
    every_call(c, r, &img, &names);
}

/// Now and then a name is asked for that isn't there, and another stands between.
fn some_left_out(r: &mut Rng, files: &mut Vec<File>) {
    if r.chance(50) {
        files.remove(r.below(files.len() as u64) as usize);
    }
    if r.chance(50) {
        let place = r.below(files.len() as u64 + 1) as usize;
        files.insert(place, (r.of(&good_names()), COMMITTED));
    }
}

/// Nothing, or a second record of some file's name, anywhere among the others. Gives what the image then is.
fn with_twins(r: &mut Rng, files: &mut Vec<File>) -> &'static str {
    let (source, first, second) = match r.below(5) {
        0 | 1 => return "colliding names",
        2 => ("colliding names, two FC of one", COMMITTED, COMMITTED),
        3 => ("colliding names, two F8 of one", MIGRATING, MIGRATING),
        _ => ("colliding names, F8 and FC of one", MIGRATING, COMMITTED),
    };
    let twin = r.below(files.len() as u64) as usize;
    files[twin].1 = first;
    let place = r.below(files.len() as u64 + 1) as usize;
    files.insert(place, (files[twin].0.clone(), second));
    source
}
