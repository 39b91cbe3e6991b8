//! Vectors that tell an order: that of repairs 2 and 3, of which no history leaves both to
//! mount, and that of the sizes which the room rule (K6) places.
use crate::collect::Collection;
use crate::emit::{equation, room_equation, Vector};
use crate::held::plain;
use model::*;
use testing::aimed::{unfinished_last, write_record};
use testing::call::Call;
use testing::rng::Rng;
use testing::ALL;

const REPAIRS: &str = "repairs 2 and 3";
const LARGEST_FIRST: &str = "room: the largest first tells";
const NEW_FIRST: &str = "room: the new one first tells";
/// What these vectors are of.
pub const ORDERS: [&str; 3] = [REPAIRS, LARGEST_FIRST, NEW_FIRST];
const SOURCE: &str = "order";
/// How many images for the repairs, and how many vectors for each order of sizes.
const OF_EACH: u64 = 6;

/// A dead head, behind it a CLEAN or a START, and last an unfinished record.
fn two_repairs(r: &mut Rng) -> Vec<u8> {
    let mut img = vec![0xFF; 8192];
    let head = r.of(&[0, 16, SECTOR, SECTOR + 64]);
    let at = write_record(&mut img, head, [0x00, 0x5A, 0x00], b"", &[]);
    let second = [r.of(&[0xA0, 0xA0, 0x80, 0x00]), 0x5A, r.of(&[0x00, 0xFC])];
    write_record(&mut img, at, second, b"b", &[0x66; 4]);
    unfinished_last(r, &mut img);
    img
}

/// Mounts of such an image, whole and cut inside each of the two repairs.
fn repairs(r: &mut Rng, c: &mut Collection) {
    for _ in 0..OF_EACH {
        let img = two_repairs(r);
        let need = Call::Mount(ALL).need(&img);
        for allowance in [ALL, 1, need - 1] {
            let told = plain(Call::Mount(allowance));
            let mut after = img.clone();
            let reply = told.run(&mut after);
            let (function, text) = equation(&img, &told.made.call, told.byte, &reply, &after);
            c.add(Vector { function, text, kind: "mount", answer: reply.answer, tags: vec![REPAIRS], source: SOURCE });
        }
    }
}

/// Files one after another from a dead head on.
fn filled(r: &mut Rng) -> Vec<u8> {
    let n: u64 = r.of(&[8192, 12288]);
    let mut img = vec![0xFF; n as usize];
    let head = (1 + r.below(n / SECTOR - 1)) * SECTOR + r.of(&[0, 512]);
    let mut at = write_record(&mut img, head, [0x00, 0x5A, 0x00], b"", &[]);
    for name in [b"a", b"b", b"c", b"d"] {
        let most = r.of(&[20, 100, 240]);
        let data = vec![0x11; 8 * (1 + r.below(most)) as usize];
        if at + size_of(1, data.len() as u64) <= n {
            at = write_record(&mut img, at, [0xA5, 0x5A, COMMITTED], name, &data);
        }
    }
    img
}

/// The orders in which the rule would answer otherwise for a new file of so many bytes.
fn telling(img: &[u8], c: &Chain, name: &[u8], d: u64) -> Vec<&'static str> {
    let s = size_of(name.len() as u64, d);
    let Some(placed) = c.place(img.len() as u64).fit(s) else { return vec![] };
    let sizes = sizes_behind(img, c, name, s, placed.at);
    let (there, most) = sizes.split_at(sizes.len() - 2);
    let mut new_first = there.to_vec();
    if c.in_head_sector(placed.at) {
        new_first.rotate_right(1);
    }
    let room = placed.next.fit_all(&sizes);
    let tells = |order: [&[u64]; 2]| placed.next.fit_all(&order.concat()) != room;
    let found = [(LARGEST_FIRST, tells([most, there])), (NEW_FIRST, tells([&new_first, most]))];
    found.into_iter().filter(|t| t.1).map(|t| t.0).collect()
}

/// The room rule where its answer depends on the order of its sizes.
fn rooms(r: &mut Rng, c: &mut Collection) {
    let lacks = |c: &Collection, tag: &str| c.count(&format!("tag {tag}")) < OF_EACH;
    while lacks(c, LARGEST_FIRST) || lacks(c, NEW_FIRST) {
        let img = filled(r);
        let chain = read_image(&img).expect("files behind a head");
        let d = 8 * r.below(200);
        let tags = telling(&img, &chain, b"new", d);
        if tags.iter().any(|t| lacks(c, t)) {
            let text = room_equation(&img, &chain, b"new", d);
            c.add(Vector { function: "check_room", text, kind: "room", answer: 0, tags, source: SOURCE });
        }
    }
}

pub fn add(c: &mut Collection) {
    let mut r = Rng::new(3);
    repairs(&mut r, c);
    rooms(&mut r, c);
}
