//! K7 on an image of "Cases, N = 8,192", the stops worked out by hand.
use model::*;

const N: u32 = 8192;
const ALL: u64 = u64::MAX;

/// Formatted, with one file: the head at 0, "dose" at 16, all from 40 on FF.
fn dose() -> Vec<u8> {
    let mut img = vec![0x33; N as usize];
    assert_eq!(format(&mut img, ALL).answer, 0);
    assert_eq!(put(&mut img, b"dose", &[1, 2, 3], ALL).answer, 0);
    img
}

/// A replay of these entries over the image.
fn replayed(img: &mut [u8], entries: &[[u32; 3]]) -> Replayed {
    let [kinds, addresses, bytes] = [0, 1, 2].map(|i| entries.iter().map(|e| e[i]).collect::<Vec<u32>>());
    replay(img, [&kinds, &addresses, &bytes])
}

fn stopped(position: u64, stop: u32) -> Replayed {
    Replayed { answer: 0, position, stop }
}

/// One entry behind a good one: what stops it, and that the good one alone is carried out.
fn second(entry: [u32; 3], stop: u32) {
    let (before, mut img) = (dose(), dose());
    assert_eq!(replayed(&mut img, &[[1, 40, 0x7F], entry]), stopped(1, stop), "{entry:?}");
    assert_eq!(img[40], 0x7F);
    img[40] = 0xFF;
    assert_eq!(img, before);
}

#[test]
fn out_of_range() {
    second([1, N, 0xFF], 1);
    second([2, N, 0xFF], 1);
    second([1, u32::MAX, 0xFF], 1);
    // "An erase whose address doesn't start a sector, or a programmed byte above 255"
    second([2, 1, 0xFF], 1);
    second([2, 4095, 0xFF], 1);
    second([1, 48, 256], 1);
    // its lowest eight bits stand there already
    second([1, 16, 0x100 + 0xA5], 1);
}

#[test]
fn tested_in_that_order() {
    // unknown, and past the end
    second([0, N, 0], 1);
    second([3, N, 0], 1);
    // unknown: an erase's rule and a byte's are not its own
    second([3, 1, 256], 2);
    second([0, 16, 0xFF], 2);
    // above 255, and it would set bits
    second([1, 16, 0x1FF], 1);
}

#[test]
fn a_bit_from_0_to_1() {
    // the record's first byte is A5
    second([1, 16, 0xA7], 3);
    second([1, 40, 0xFF], 3);
    let mut img = dose();
    assert_eq!(replayed(&mut img, &[[1, 16, 0xA5], [1, 16, 0xA0], [1, 16, 0xA5]]), stopped(2, 3));
    assert_eq!(img[16], 0xA0);
}

#[test]
fn an_erases_byte_is_ignored() {
    for byte in [0, 0xFF, 256, u32::MAX] {
        let mut img = dose();
        assert_eq!(replayed(&mut img, &[[2, 0, byte]]), stopped(1, 0));
        assert!(img.iter().all(|&b| b == 0xFF));
    }
}

#[test]
fn refused_with_22() {
    let refused = Replayed { answer: 22, position: 0, stop: 0 };
    for lengths in [[1, 2, 2], [2, 1, 2], [2, 2, 1], [0, 0, 1]] {
        let mut img = dose();
        let [kinds, addresses, bytes] = lengths.map(|l| vec![1u32; l]);
        assert_eq!(replay(&mut img, [&kinds, &addresses, &bytes]), refused);
        assert_eq!(img, dose());
    }
    for n in [0, 4096, 8191, 8193] {
        assert_eq!(replay(&mut vec![0xFF; n], [&[], &[], &[]]), refused);
    }
}

/// The search over these entries.
fn first(img: &mut [u8], entries: &[[u32; 3]]) -> (bool, u64) {
    let [kinds, addresses, bytes] = [0, 1, 2].map(|i| entries.iter().map(|e| e[i]).collect::<Vec<u32>>());
    let told = first_refused(img, [&kinds, &addresses, &bytes]);
    assert_eq!(told.answer, 0);
    (told.there, told.count)
}

#[test]
fn the_first_image_that_mount_would_refuse() {
    // no head at all: count 0
    assert_eq!(first(&mut [0xFF; N as usize], &[[1, 40, 0x00]]), (true, 0));
    // a byte of the free run
    assert_eq!(first(&mut dose(), &[[1, 16, 0xA5], [1, 5000, 0x00], [2, 4096, 0]]), (true, 2));
    // the status E0 is dead, which breaks no rule
    assert_eq!(first(&mut dose(), &[[1, 18, 0xE0]]), (false, 1));
    // the stop before it would be refused, and the image at the stop
    assert_eq!(first(&mut dose(), &[[1, 16, 0xA7], [1, 5000, 0x00]]), (false, 0));
    assert_eq!(first(&mut dose(), &[[1, 5000, 0x00], [1, 5000, 0xFF]]), (true, 1));
    // the reserved byte of the header
    assert_eq!(first(&mut dose(), &[[1, 19, 0x7F]]), (true, 1));
}

#[test]
fn a_planned_trace_replays_to_its_end() {
    let (mut direct, mut img) = (dose(), dose());
    let mut entries = vec![[0; 3]; 19];
    let [mut kinds, mut addresses, mut bytes] = [[0; 19]; 3];
    let handing = plan_out(&img, Ask::Put(b"dose", &[7, 8, 9]), 0, [&mut kinds, &mut addresses, &mut bytes]);
    assert_eq!(handing.handed, 19);
    for (i, entry) in entries.iter_mut().enumerate() {
        *entry = [kinds[i], addresses[i], bytes[i]];
    }
    assert_eq!(replayed(&mut img, &entries), stopped(19, 0));
    assert_eq!(put(&mut direct, b"dose", &[7, 8, 9], ALL).answer, 0);
    assert_eq!(img, direct);
}
