//! The check of an image (K13): the library against the model, on images with one fault
//! and with many, and on bad lengths.
//!   verdicts [IMAGES [SEED]]
use std::collections::BTreeMap;
use testing::argument;
use testing::faulty::{faulty, kind_of, VERDICTS};
use testing::rng::Rng;

/// A run is given up when so many differ.
const ENOUGH: u64 = 20;

#[derive(Default)]
struct Tally {
    images: u64,
    differ: u64,
    verdicts: BTreeMap<&'static str, u64>,
}

impl Tally {
    fn one(&mut self, img: &[u8]) {
        let (model, library) = (model::check(img), library::check(img));
        self.images += 1;
        *self.verdicts.entry(kind_of(model)).or_default() += 1;
        if model != library {
            self.differ += 1;
            println!("DIFFERS: N {}, model {model:?}, library {library:?}", img.len());
        }
    }
}

fn main() {
    let (images, seed) = (argument(1, 40_000), argument(2, 1));
    println!("library: {}", library::path().display());
    let mut r = Rng::new(seed);
    let mut tally = Tally::default();
    for n in [0, 7, 4096, 8184, 8193, 16_777_216 + 4096] {
        tally.one(&vec![0xFF; n]);
    }
    while tally.images < images && tally.differ < ENOUGH {
        let n = r.of(&[8192, 8192, 12288, 16384, 65536]);
        tally.one(&faulty(&mut r, n, false));
    }
    for verdict in VERDICTS {
        println!("{:>8}  {verdict}", tally.verdicts.get(verdict).copied().unwrap_or(0));
    }
    println!("{} images, {} differ", tally.images, tally.differ);
    if tally.differ > 0 || VERDICTS.iter().any(|v| !tally.verdicts.contains_key(v)) {
        std::process::exit(1);
    }
}
