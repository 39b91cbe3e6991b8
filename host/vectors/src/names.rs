//! Vectors of request K5: the name check by itself, put, get, remove and their plans with names that are refused, and
//! files whose names stand at the edges of the rule.
use crate::collect::{Collection, EACH};
use crate::emit::{bytes, equation, Vector};
use crate::held::plain;
use crate::plans;
use model::*;
use testing::aimed::write_record;
use testing::call::{formatted, Call};
use testing::names::{bad_names, edge_name, good_names, stored_name, tag, EDGES, NAME_TAGS};
use testing::rng::Rng;
use testing::{tags, ALL};

/// What a vector of the name check computes, behind the rest of the helper.
pub const HELPER: &str = "
-- what the name check says of these bytes
unfoldable pub check_name : List ℕ → ℕ → ℕ → Bool
unfolding NAMES
check_name name reason place =
    let f = Record.name_fault name in
    eqb f.reason reason && eqb f.place place
";

/// Names at random besides those of the table.
const RANDOM: usize = 60;
/// How many images with stored names.
const STORED: usize = 40;
/// The kinds and sources of these vectors.
const CHECK: &str = "name";
const REFUSED: &str = "refused name";
const KEPT: &str = "stored name";

/// Letters, spaces, slashes and FF alone, of lengths around the edges of the rule; and letters with one of EDGES first,
/// inside or last, also before a final slash.
fn table() -> Vec<Vec<u8>> {
    let mut names = [good_names(), bad_names()].concat();
    for length in [0, 1, 2, 8, 62, 63, 64, 65, 70] {
        names.extend([b'n', b' ', b'/', 0xFF].map(|byte| vec![byte; length]));
    }
    for length in [1, 2, 3, 63] {
        for (place, edge) in [0, length / 2, length - 1].into_iter().flat_map(|place| EDGES.map(|edge| (place, edge))) {
            let mut name = vec![b'n'; length];
            name[place] = edge;
            names.push(name.clone());
            name[length - 1] = b'/';
            names.push(name);
        }
    }
    names.sort();
    names.dedup();
    names
}

fn check(c: &mut Collection, name: &[u8]) {
    let says = name_fault(name);
    let text = format!("check_name {} {} {}", bytes(name), says.reason, says.place);
    let tags = tag(name).into_iter().collect();
    c.add(Vector { function: "check_name", text, kind: CHECK, answer: says.reason, tags, source: CHECK });
}

/// A whole call on an image.
fn call(c: &mut Collection, img: &[u8], call: Call, source: &'static str) {
    let told = plain(call);
    let mut after = img.to_vec();
    let reply = told.run(&mut after);
    let call = &told.made.call;
    let (kind, answer, tags) = (call.kind(), reply.answer, tags::of(img, call, &reply, &after));
    let (function, text) = equation(img, call, told.byte, &reply, &after);
    c.add(Vector { function, text, kind, answer, tags, source });
}

/// Put, get and remove, and the plans of put and remove: of a settled image, one without a head, one that wants a mount,
/// and one of a bad length.
fn refused(c: &mut Collection) {
    let settled = formatted(8192);
    let mut unsettled = settled.clone();
    assert_eq!(put(&mut unsettled, b"dose", &[1], 7).answer, 4);
    let images = [settled, vec![0xFF; 8192], unsettled, vec![0xFF; 4096]];
    for (i, name) in bad_names().into_iter().enumerate() {
        // every name on the settled image, and on one of the others
        for img in [&images[0], &images[1 + i % 3]] {
            let [put, remove] = [Call::Put(name.clone(), vec![1], ALL), Call::Remove(name.clone(), ALL)];
            plans::refused(c, img, &put, REFUSED);
            plans::refused(c, img, &remove, REFUSED);
            [put, remove, Call::Get(name.clone())].into_iter().for_each(|named| call(c, img, named, REFUSED));
        }
    }
}

/// A file of such a name, live or dead, and the mount of its image; then a get of it.
fn stored(c: &mut Collection, r: &mut Rng) {
    for i in 0..STORED {
        let name = if i % 2 == 0 { stored_name(r) } else { edged(r) };
        let mut img = formatted(8192);
        let status = r.of(&[COMMITTED, COMMITTED, COMMITTED, MIGRATING, DELETED]);
        write_record(&mut img, 16, [0xA5, 0x5A, status], &name, &[0x44; 5]);
        call(c, &img, Call::Mount(ALL), KEPT);
        call(c, &img, Call::Get(name), KEPT);
    }
}

/// A short name with one of EDGES, but 00, first, inside or last.
fn edged(r: &mut Rng) -> Vec<u8> {
    let mut name = b"basal".to_vec();
    let place = r.of(&[0, 2, 4]);
    name[place] = r.of(&EDGES[..8]);
    name
}

/// What has too few vectors. Only one name is empty, which its tag counts in the calls too.
pub fn lacking(c: &Collection) -> Vec<String> {
    let reasons = [0, 2, 3, 4].map(|reason| format!("{CHECK} {reason}")).into_iter();
    let tags = NAME_TAGS.iter().map(|t| format!("tag {t}"));
    let sources = [CHECK, REFUSED, KEPT].map(|s| format!("source {s}"));
    reasons.chain(tags).chain(sources).filter(|w| c.count(w) < EACH).collect()
}

pub fn add(c: &mut Collection) {
    let mut r = Rng::new(6);
    let random: Vec<Vec<u8>> = (0..RANDOM).map(|_| edge_name(&mut r)).collect();
    for name in table().into_iter().chain(random) {
        check(c, &name);
    }
    refused(c);
    stored(c, &mut r);
}
