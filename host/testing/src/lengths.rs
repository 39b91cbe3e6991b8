//! Images, heads and names for a file's length (K8): settled ones with their own head,
//! damaged ones, and heads that are wrong.
use crate::aimed::{superseded, superseded_head, tight, unfinished_last};
use crate::images::{built, damage, of_history};
use crate::maker::Maker;
use crate::names::bad_names;
use crate::rng::Rng;
use crate::ALL;
use model::*;

/// An image, and the head that mount reports of it, or would report.
pub struct Asked {
    pub img: Vec<u8>,
    pub head: u64,
    pub name: Vec<u8>,
}

/// What a length shows.
pub const TAGS: [&str; 15] = [
    "length: settled, own head",
    "length: settled, own head, no such file",
    "length: not settled",
    "length: head wrong by 8",
    "length: head wrong by a sector",
    "length: head no boundary",
    "length: head not below N",
    "length: turned at a marker",
    "length: turned at N",
    "length: ends at a turn's limit",
    "length: ends at N",
    "length: FC behind an F8 of its name",
    "length: F8 alone",
    "length: refused behind a record of its name",
    "length: head at a marker, START at 0",
];

fn image(r: &mut Rng, n: usize) -> Vec<u8> {
    let maker = if r.chance(50) { Maker::with_markers(r) } else { Maker::short(20) };
    let mut img = match r.below(5) {
        0 => built(r, n, true),
        1 => tight(r, n),
        2 => superseded_head(r, n),
        _ => of_history(r, n, &maker, 50),
    };
    match r.below(6) {
        0 => damage(r, &mut img),
        1 => superseded(r, &mut img),
        2 => unfinished_last(r, &mut img),
        3 => _ = mount(&mut img, ALL),
        _ => (),
    }
    img
}

/// The head by the search, or the address of a record where there is none.
fn own_head(r: &mut Rng, img: &[u8]) -> u64 {
    find_head(img).unwrap_or_else(|_| r.below(img.len() as u64 / 8) * 8)
}

fn head(r: &mut Rng, img: &[u8], own: u64) -> u64 {
    let n = img.len() as u64;
    match r.below(16) {
        0 => own + 8,
        1 => own.saturating_sub(8),
        2 => own + SECTOR,
        3 => own.saturating_sub(SECTOR),
        4 => own + 1 + r.below(7),
        5 => r.of(&[n, n + 8, u64::from(u32::MAX), n - 8]),
        6 => r.below(n / 8) * 8,
        _ => own,
    }
}

/// A name of the chain from this head, live or not; else any.
fn name(r: &mut Rng, img: &[u8], head: u64) -> Vec<u8> {
    let names: Vec<Vec<u8>> = read_chain(img, floor(head) + head % SECTOR / 8 * 8)
        .map_or(Vec::new(), |c| c.records.iter().filter(|x| x.name_len > 0).map(|x| x.name(img).to_vec()).collect());
    if names.is_empty() || r.chance(20) {
        return if r.chance(20) { r.of(&bad_names()) } else { Maker::short(5).name(r) };
    }
    r.of(&names)
}

/// The marker of a turned image taken for the head, with the record at 0 made a START.
fn at_marker(img: &mut [u8]) -> Option<u64> {
    let marker = read_image(img).ok()?.marker?;
    img[0] = 0x00;
    Some(marker)
}

pub fn asked(r: &mut Rng, lengths: &[usize]) -> Asked {
    let n = r.of(lengths);
    let mut img = image(r, n);
    let own = own_head(r, &img);
    let marker = if r.chance(10) { at_marker(&mut img) } else { None };
    let head = marker.unwrap_or_else(|| head(r, &img, own));
    let near = if head < img.len() as u64 { head } else { own };
    let name = name(r, &img, near);
    Asked { img, head, name }
}

/// Whether this record stands on the walk of these stretches.
fn walked(seen: &[Extent], at: u64) -> bool {
    seen.iter().any(|x| x.offset == at && x.length == 8)
}

/// The tags of a length that was asked and told.
pub fn tags(a: &Asked, reply: &Reply, seen: &[Extent]) -> Vec<&'static str> {
    let n = a.img.len() as u64;
    if !good_length(n) {
        return Vec::new();
    }
    let own = find_head(&a.img).ok();
    let at_own = own == Some(a.head);
    let settled = read_image(&a.img).is_ok_and(|c| settled(&a.img, &c));
    let wrong_by = |d: u64| own.is_some_and(|h| a.head.abs_diff(h) == d);
    let of_name = |st: u8| {
        let headers = seen.iter().filter(|x| x.length == 8 && x.offset + 8 <= n);
        headers.filter(move |x| status(&a.img, x.offset) == st).filter_map(|x| {
            let e = name_end(&a.img, x.offset)?;
            (a.img[x.offset as usize + 8..][..e.len as usize] == a.name[..]).then_some(x.offset)
        })
    };
    let (fc, f8) = (of_name(COMMITTED).next(), of_name(MIGRATING).next());
    let place = |at: u64| seen.iter().position(|x| x.offset == at);
    let marker = seen.iter().any(|x| x.offset + 8 <= n && magic(&a.img, x.offset) == WRAP);
    let end = seen.last().is_some_and(|x| x.length == 8 && blank(&a.img, x.offset, (x.offset + 8).min(n)));
    let turned = seen.iter().any(|x| x.offset < floor(a.head));
    let done = matches!(reply.answer, 0 | 2);
    let found = [
        settled && at_own && reply.answer == 0,
        settled && at_own && reply.answer == 2,
        !settled && at_own,
        wrong_by(8),
        wrong_by(SECTOR),
        a.head % 8 != 0,
        a.head >= n,
        done && marker,
        done && turned && !marker,
        done && turned && !end,
        done && !turned && !end,
        done && fc.zip(f8).is_some_and(|(c, m)| place(m) < place(c)),
        done && fc.is_none() && f8.is_some(),
        reply.answer == 5 && (fc.is_some() || f8.is_some()) && walked(seen, a.head) && seen.len() > 2,
        a.head + 8 <= n && magic(&a.img, a.head) == WRAP && magic(&a.img, 0) == START,
    ];
    TAGS.into_iter().zip(found).filter(|t| t.1).map(|t| t.0).collect()
}
