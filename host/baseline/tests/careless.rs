//! The store over C functions notices what a careless library leaves or spills.
use baseline::functions;
use model::Reply;
use testing::c_calls::{Functions, Library};
use testing::call::{Call, Store};
use testing::ALL;

/// Refuses, and leaves the number of steps unwritten.
unsafe extern "C" fn silent(_: *mut u8, _: usize, _: usize, _: *mut usize) -> u32 {
    22
}

/// Refuses, and writes the byte behind the image.
unsafe extern "C" fn spilling(image: *mut u8, length: usize, _: usize, steps: *mut usize) -> u32 {
    *steps = 0;
    if !image.is_null() {
        *image.add(length) = 0;
    }
    22
}

#[test]
fn careless_c_is_noticed() {
    for format in [silent, spilling] {
        let store = Library::new(Functions { format, ..functions() });
        let reply = store.call(&mut [0xFF; 4096], &Call::Format(ALL));
        assert_ne!(reply, Ok(Reply::refusal(22)));
    }
}
