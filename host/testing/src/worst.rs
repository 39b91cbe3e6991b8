//! The images on which mount has most to do: the largest file full of marks stands at the
//! head, and the sweep that moves it is cut behind its step (b).
use crate::call::{Call, Store};
use crate::ALL;
use model::Step;

/// A history that ends in such an image, but for the cut: what the sweep moves.
#[derive(Clone, Copy, Debug, PartialEq)]
pub enum Before {
    /// the file stands in the sector of the head that format wrote
    Nothing,
    /// a file fills that sector and is removed, so that the largest one begins behind it
    Filler,
}

/// Data that holds a mark at every 8-byte boundary.
fn marks(length: usize) -> Vec<u8> {
    [0xA5, 0x5A, 0, 0, 0, 0, 0, 0].iter().copied().cycle().take(length).collect()
}

/// A call of these that must end so.
fn answers(store: &impl Store, img: &mut [u8], call: &Call, answer: u32) {
    let reply = store.call(img, call).expect("steps as reported");
    assert_eq!(reply.answer, answer, "{} of {} bytes", call.kind(), img.len());
}

/// The most data, in 8 bytes, that put has room for: at an allowance of 0 it answers 4.
fn largest(store: &impl Store, img: &mut [u8], name: &[u8]) -> Vec<u8> {
    let (mut fits, mut over) = (0, img.len() / 8);
    while fits + 1 < over {
        let some = (fits + over) / 2;
        let put = Call::Put(name.to_vec(), marks(8 * some), 0);
        match store.call(img, &put).expect("no steps").answer {
            4 => fits = some,
            28 => over = some,
            other => panic!("put answers {other}"),
        }
    }
    marks(8 * fits)
}

/// An image of n bytes whose mount is the longest behind this history, and how many
/// data bytes stand at its head.
pub fn image(store: &impl Store, n: usize, before: Before) -> (Vec<u8>, usize) {
    let mut img = vec![0; n];
    answers(store, &mut img, &Call::Format(ALL), 0);
    if before == Before::Filler {
        // the header of 8 bytes and the name of 8; format's record has 16
        let filler = vec![0; 4096 - 16 - 16];
        answers(store, &mut img, &Call::Put(b"f".to_vec(), filler, ALL), 0);
        answers(store, &mut img, &Call::Remove(b"f".to_vec(), ALL), 0);
    }
    let data = largest(store, &mut img, b"x");
    answers(store, &mut img, &Call::Put(b"x".to_vec(), data.clone(), ALL), 0);
    // the last step (b) of this sweep that has the file behind it: Y is then the copy
    let plan = Call::Sweep(ALL).plan(&img).expect("a settled image");
    let first = plan.steps.iter().rposition(|&s| matches!(s, Step::Program(a, 0xA5) if a % 8 == 0)).expect("a copy");
    let b = plan.steps[first..].iter().position(|s| matches!(s, Step::Program(_, 0xA0))).expect("step (b)");
    answers(store, &mut img, &Call::Sweep((first + b + 1) as u64), 4);
    (img, data.len())
}
