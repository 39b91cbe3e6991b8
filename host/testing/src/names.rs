//! Names: good ones, bad ones, and ones at the edges of the name rule.
use crate::rng::Rng;
use model::{good_name, name_fault};

/// The bytes at the edges of the name rule: 20 and '/' by their place, 21 and 7E good, the others bad.
pub const EDGES: [u8; 9] = [0x20, 0x2F, 0x21, 0x7E, 0x1F, 0x7F, 0x80, 0xFF, 0x00];

/// Names that pass the name check, of lengths around the multiples of 8, some with spaces.
pub fn good_names() -> Vec<Vec<u8>> {
    let mut names: Vec<Vec<u8>> =
        ["a", "bb", "dose", "seven77", "eight888", "dir/fifteen-byt", "!", "ZZ", "night basal", "a b"]
            .map(|s| s.into())
            .into();
    names.extend([vec![b'~'; 16], vec![b'Z'; 63]]);
    names
}

/// Names that fail it, by each reason; bad bytes first, inside and last.
pub fn bad_names() -> Vec<Vec<u8>> {
    let names: [&[u8]; 10] =
        [b"", b"a/", &[b'q'; 64], b" a", b"a ", b" ", b"\x7F", b"\x80", b"night\x1Fbasal", b"a\x7F/"];
    names.map(|name| name.to_vec()).into()
}

/// A name of 0 to 70 bytes, most often of a few, with up to two bytes of EDGES at the front, at the end or inside.
pub fn edge_name(r: &mut Rng) -> Vec<u8> {
    let length = match r.below(5) {
        0 => r.below(71),
        1 => r.of(&[0, 1, 2, 62, 63, 64, 65]),
        _ => 1 + r.below(12),
    };
    let mut name: Vec<u8> = (0..length).map(|_| b'a' + r.below(26) as u8).collect();
    if length > 0 {
        for _ in 0..r.below(3) {
            let any = r.below(length);
            let place = r.of(&[0, length - 1, length / 2, any]);
            name[place as usize] = r.of(&EDGES);
        }
    }
    name
}

/// A name that a record can hold: of 1 to 63 bytes, none of them 00; most often a good one.
pub fn stored_name(r: &mut Rng) -> Vec<u8> {
    loop {
        let name = edge_name(r);
        let holds = (1..=63).contains(&name.len()) && !name.contains(&0);
        if holds && (good_name(&name) || r.chance(15)) {
            return name;
        }
    }
}

/// What the name check says, and where the first bad byte stands.
pub fn tag(name: &[u8]) -> Option<&'static str> {
    let fault = name_fault(name);
    let last = fault.place + 1 == name.len() as u64;
    match fault.reason {
        0 => name.contains(&b' ').then_some("name with a space"),
        1 => Some("name empty"),
        2 => Some("name too long"),
        3 if fault.place == 0 => Some("bad byte first"),
        3 if last => Some("bad byte last"),
        3 => Some("bad byte inside"),
        _ => Some("final slash"),
    }
}

/// The tags of names, and of an image with such a file.
pub const NAME_TAGS: [&str; 8] = [
    "name with a space",
    "name empty",
    "name too long",
    "bad byte first",
    "bad byte inside",
    "bad byte last",
    "final slash",
    "file name with a space",
];
