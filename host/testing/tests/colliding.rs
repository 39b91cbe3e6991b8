//! The names that are made to collide do, by the formula of docs/requests/K2.md; and the library's source has its numbers.
use model::bits::{colliding, hash, Signature};
use model::good_name;
use std::collections::BTreeSet;
use testing::colliding::Kind;
use testing::rng::Rng;

fn names_of(kind: Kind, seed: u64) -> Vec<Vec<u8>> {
    kind.names(&mut Rng::new(seed), 12)
}

#[test]
fn names_are_good_and_different() {
    let mut lengths = BTreeSet::new();
    for (kind, seed) in Kind::ALL.into_iter().flat_map(|kind| (0..40).map(move |seed| (kind, seed))) {
        let names = names_of(kind, seed);
        assert_eq!(names.len(), if kind == Kind::Short { 4 } else { 12 });
        assert!(names.iter().all(|name| good_name(name)), "{kind:?}: {names:02x?}");
        assert_eq!(names.iter().collect::<BTreeSet<_>>().len(), names.len(), "{kind:?}: {names:02x?}");
        lengths.extend(names.iter().map(Vec::len));
    }
    assert!([3, 6, 7, 8, 9, 16, 31, 60].iter().all(|length| lengths.contains(length)), "{lengths:?}");
}

fn count(names: &[Vec<u8>]) -> usize {
    colliding(names.iter().map(|name| &name[..]))
}

#[test]
fn names_of_one_hash() {
    for seed in 0..40 {
        let names = names_of(Kind::Hash, seed);
        assert!(names.iter().all(|name| hash(name) == hash(&names[0])), "{names:02x?}");
        assert_eq!(count(&names), names.len() - 1);
    }
}

/// A hash has fewer names of six bytes: the others are longer.
#[test]
fn more_names_than_a_hash_has_short_ones() {
    let names = Kind::Hash.of_lengths(&mut Rng::new(1), 400, |_| 6);
    assert_eq!(names.iter().collect::<BTreeSet<_>>().len(), 400);
    assert!(names.iter().all(|name| good_name(name) && hash(name) == hash(&names[0])));
    assert!((1..300).contains(&names.iter().filter(|name| name.len() == 6).count()));
}

/// All bits of a name are set by three others, and not by two of them.
fn covered_by_three(names: &[Vec<u8>]) {
    let signed: Vec<Signature> = names.iter().map(|name| Signature::of(name)).collect();
    let [a, b, c, last] = signed[..] else { panic!("four names") };
    assert!(last.is_set_by(&[a, b, c]), "{names:02x?}");
    assert!([[a, b], [a, c], [b, c]].iter().all(|two| !last.is_set_by(two)), "{names:02x?}");
}

#[test]
fn names_covered_by_three() {
    for seed in 0..40 {
        let names = names_of(Kind::Covered, seed);
        names.chunks(4).for_each(covered_by_three);
        assert!(count(&names) >= names.len() / 4);
    }
}

#[test]
fn short_names() {
    let mut some = BTreeSet::new();
    for seed in 0..40 {
        let names = names_of(Kind::Short, seed);
        covered_by_three(&names);
        assert!(count(&names) >= 1);
        some.insert(names);
    }
    assert!(some.len() > 10, "{}", some.len());
}

/// 64 bits in each word, up to three to a name: of 200 names many come to bits that are set.
#[test]
fn words_fill_up() {
    let names = Kind::Words.names(&mut Rng::new(1), 200);
    assert!(names.iter().all(|name| Signature::of(name).words == Signature::of(&names[0]).words));
    let hashes: BTreeSet<u32> = names.iter().map(|name| hash(name)).collect();
    assert!((30..50).contains(&hashes.len()), "{}", hashes.len());
    assert!(count(&names) > 80, "{}", count(&names));
}

/// Other names hardly ever do.
#[test]
fn other_names_do_not_collide() {
    let names: Vec<String> = (0..256).map(|i| format!("/f{i}")).collect();
    assert_eq!(colliding(names.iter().map(|name| name.as_bytes())), 0);
    // the same name again is no collision
    assert_eq!(colliding([&b"a"[..], b"a", b"b"].into_iter()), 0);
}

#[test]
fn the_library_has_this_table() {
    let text = |file: &str| {
        let path = format!("{}/../../crates/filter/src/{file}.rt", env!("CARGO_MANIFEST_DIR"));
        std::fs::read_to_string(path).expect("the library's table")
    };
    let both = text("hash") + &text("table");
    for part in [
        "const WORDS: usize = 512;",
        "const HASH_LIMIT: u64 = 0x1_0000_0000;",
        "folded((w % HASH_LIMIT + h) * 0x1656_67B1 + w / HASH_LIMIT * 0x27D4_EB2F)",
        "y / HASH_LIMIT + y % HASH_LIMIT",
        "let z = h * 0xC2B2_AE3D;",
        "bits: three_bits(z),",
        "first: (z / 0x80_0000_0000_0000) as usize,",
        "second: (z / 0x4000_0000_0000 % 512) as usize,",
        "third: (z / 0x20_0000_0000 % 512) as usize,",
        "1 << (z / 0x8000_0000 % 64) | 1 << (z / 0x200_0000 % 64) | 1 << (z / 0x8_0000 % 64)",
    ] {
        assert!(both.contains(part), "no {part} in crates/filter/src");
    }
}
