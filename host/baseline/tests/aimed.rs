//! What this C does in its own way, against the model: names by keys, blanks by words, one reading for a whole call.
use baseline::functions;
use model::{floor, read_image, SECTOR};
use std::collections::BTreeSet;
use testing::aimed::{chain_of, tight, write_record};
use testing::c_calls::Library;
use testing::call::{Call, Store};
use testing::rng::Rng;
use testing::ALL;

/// One call on a copy of the image, by the C and by the model; gives what is left.
fn same(store: &Library, img: &[u8], call: &Call) -> Vec<u8> {
    let (mut expected, mut left) = (img.to_vec(), img.to_vec());
    let reply = call.run(&mut expected);
    assert_eq!(store.call(&mut left, call), Ok(reply), "{call:02x?}, N = {}", img.len());
    assert!(left == expected, "{call:02x?}, N = {}: another image", img.len());
    left
}

/// All calls that read or write files, whole and cut; then again on what a mount left.
fn every_call(store: &Library, r: &mut Rng, img: &[u8], name: &[u8]) {
    let mounted = same(store, img, &Call::Mount(ALL));
    same(store, img, &Call::Mount(r.below(9)));
    for img in [img, &mounted] {
        let content = vec![0x5A; r.below(40) as usize];
        for call in [
            Call::Get(name.to_vec()),
            Call::List(r.below(12)),
            Call::Put(name.to_vec(), content, ALL),
            Call::Remove(name.to_vec(), ALL),
            Call::Sweep(ALL),
            Call::Sweep(r.below(80)),
        ] {
            same(store, img, &call);
        }
    }
}

/// So many names, all different, many of them alike.
fn different_names(r: &mut Rng, count: usize) -> Vec<Vec<u8>> {
    let mut names = BTreeSet::new();
    while names.len() < count {
        let length = 1 + if r.chance(20) { r.below(63) } else { r.below(12) };
        let mut name = vec![b'a'; length as usize];
        for _ in 0..2 {
            name[r.below(length) as usize] = 0x30 + r.below(0x4F) as u8;
        }
        names.insert(name);
    }
    let mut names: Vec<Vec<u8>> = names.into_iter().collect();
    for i in (1..count).rev() {
        names.swap(i, r.below(i as u64 + 1) as usize);
    }
    names
}

/// Many files: none doubled, and a few names doubled with any two statuses.
#[test]
fn doubled_names() {
    let (store, mut r) = (Library::new(functions()), Rng::new(11));
    let mut seen = [0u64; 3];
    for _ in 0..500 {
        let count = r.of(&[2, 3, 17, 200, 900, 2500]);
        let mut files: Vec<(Vec<u8>, u8)> =
            different_names(&mut r, count).into_iter().map(|name| (name, r.of(&[0xFC, 0xFC, 0xFC, 0xF8]))).collect();
        let pairs = r.of(&[0, 1, 1, 2, 3]);
        for _ in 0..pairs {
            let (name, status) = r.of(&files);
            let again = if r.chance(85) { status ^ 0x04 } else { status };
            let place = r.below(files.len() as u64 + 1) as usize;
            files.insert(place, (name, again));
        }
        let n = r.of(&[16, 32, 64]) * SECTOR as usize;
        let Some(img) = chain_of(&mut r, n, &files) else { continue };
        let (name, _) = r.of(&files);
        every_call(&store, &mut r, &img, &name);
        seen[match read_image(&img) {
            Ok(c) => 1 - c.superseded.is_empty() as usize,
            Err(_) => 2,
        }] += 1;
    }
    assert!(seen.iter().all(|&images| images > 50), "settled, superseded, refused: {seen:?}");
}

/// One byte that isn't FF, at any place beside the chain, of chains that end anywhere.
#[test]
fn a_written_byte() {
    let (store, mut r) = (Library::new(functions()), Rng::new(12));
    for round in 0..6000 {
        let n = r.of(&[2, 3, 4, 9]) * SECTOR as usize;
        let mut img = if round % 2 == 0 { tight(&mut r, n) } else { chain_of(&mut r, n, &[]).expect("no file") };
        if let Ok(c) = read_image(&img) {
            let (tail, low) = (c.tail as usize, floor(c.head) as usize);
            let (near, any) = (r.below(70) as usize, r.below(n as u64) as usize);
            let a = r.of(&[tail + near, n - 1 - near, low.saturating_sub(1 + near), near, any]);
            if a < n && img[a] == 0xFF {
                img[a] = r.of(&[0xFE, 0x7F, 0x00, 0xEF]);
            }
            if r.chance(20) {
                img[c.head as usize] = r.of(&[0xA0, 0x80]);
            }
        }
        let mounted = same(&store, &img, &Call::Mount(ALL));
        same(&store, &img, &Call::Get(b"head".to_vec()));
        same(&store, &mounted, &Call::Put(b"head".to_vec(), vec![7], ALL));
    }
}

/// Bytes at the edges of the name rule, at every place of a name of every length, in records of any status.
#[test]
fn bytes_of_names() {
    let (store, mut r) = (Library::new(functions()), Rng::new(13));
    for length in 1..=63 {
        for at in 0..=length {
            for byte in [0x00, 0x01, 0x1F, 0x20, 0x21, 0x2F, 0x7E, 0x7F, 0x80, 0x81, 0xFE, 0xFF] {
                let mut img = vec![0xFF; 2 * SECTOR as usize];
                let status = r.of(&[0xFC, 0xFC, 0xF8, 0xFE, 0x00]);
                let name = vec![b'n'; length];
                write_record(&mut img, 0, [0x00, 0x5A, status], &name, &[0x44; 9]);
                // the byte behind the name too: then it has another end, or none
                img[8 + at] = byte;
                same(&store, &img, &Call::Mount(ALL));
                let mut asked = name;
                if at < length {
                    asked[at] = byte;
                }
                same(&store, &img, &Call::Get(asked));
            }
        }
    }
}

/// A head that a move leaves, dead or superseded, with other superseded files behind it; the chain ends at N, or
/// before.
fn head_to_leave(r: &mut Rng, n: usize) -> Vec<u8> {
    let mut img = vec![0xFF; n];
    let end = n as u64;
    let long = vec![0xA5; r.of(&[3, 4200, 5000])];
    let head = r.of(&[0, 16, SECTOR + 24]);
    let mut at = write_record(&mut img, head, [r.of(&[0x00, 0x00, 0xA0]), 0x5A, r.of(&[0xF8, 0x00])], b"a", &long);
    let second = [r.of(&[0xA5, 0xA0, 0x80, 0x00]), 0x5A, r.of(&[0x00, 0xFC])];
    at = write_record(&mut img, at, second, b"y", &[0x22; 11]);
    let mut files: Vec<(&[u8], u8)> = vec![(b"a", 0xFC), (b"b", 0xFC), (b"b", 0xF8), (b"c", 0xFC), (b"c", 0xF8)];
    for _ in 0..1 + r.below(5) {
        let (name, status) = files.swap_remove(r.below(files.len() as u64) as usize);
        at = write_record(&mut img, at, [0xA5, 0x5A, status], name, &[0x33; 9]);
    }
    if r.chance(60) {
        // to N, or to the 8 or 16 bytes before it
        let data = vec![0x44; (end - at - 16 - r.of(&[0, 0, 8, 16])) as usize];
        write_record(&mut img, at, [0xA5, 0x5A, r.of(&[0x00, 0xFC, 0xFE])], b"z", &data);
    }
    img
}

#[test]
fn heads_that_are_left() {
    let (store, mut r) = (Library::new(functions()), Rng::new(15));
    for _ in 0..3000 {
        let n = r.of(&[3, 4]) * SECTOR as usize;
        let img = head_to_leave(&mut r, n);
        let name = r.of(&[&b"a"[..], b"b", b"y", b"z"]);
        every_call(&store, &mut r, &img, name);
    }
}

/// An image may begin at any address.
#[test]
fn any_alignment() {
    let (store, mut r) = (Library::new(functions()), Rng::new(14));
    let name = b"head".to_vec();
    for by in 0..16 {
        for _ in 0..40 {
            let img = tight(&mut r, 3 * SECTOR as usize);
            for call in [Call::Mount(ALL), Call::Sweep(ALL), Call::Put(name.clone(), vec![3; 20], ALL)] {
                let mut expected = img.clone();
                let reply = call.run(&mut expected);
                let mut lent = [&vec![0x77; by][..], &img, &[0x77; 16]].concat();
                assert_eq!(store.lend(&mut lent[by..by + img.len()], &call), reply, "{call:02x?}");
                assert!(lent[by..by + img.len()] == expected, "{call:02x?}: another image");
            }
        }
    }
}
