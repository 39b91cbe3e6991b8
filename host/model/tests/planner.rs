//! K1 on the images of "Cases, N = 8,192", the steps worked out by hand.
use model::*;

const N: usize = 8192;
const ALL: u64 = u64::MAX;
/// Stands in the slots before they are lent.
const MARK: u32 = 0xC0DE;

/// A step as numbers.
type Numbers = [u32; 3];

fn program(at: u32, byte: u32) -> Numbers {
    [1, at, byte]
}

fn erase(at: u32) -> Numbers {
    [2, at, 0xFF]
}

/// The steps of a put's record at this address, of a name and content of less than 8 bytes.
fn record(at: u32, name: &[u8], content: &[u8]) -> Vec<Numbers> {
    let end = at + 8 + name.len() as u32;
    let mut steps = vec![program(at, 0xA5), program(at + 1, 0x5A)];
    steps.extend([program(at + 4, content.len() as u32), program(at + 5, 0), program(at + 6, 0), program(at + 7, 0)]);
    steps.push(program(at + 2, 0xFE));
    steps.extend((at + 8..).zip(name).map(|(a, &b)| program(a, b.into())));
    steps.extend([program(end, 0x80), program(end, 0x00)]);
    steps.extend((at + 16..).zip(content).map(|(a, &b)| program(a, b.into())));
    steps.push(program(at + 2, 0xFC));
    steps
}

fn formatted() -> Vec<u8> {
    let mut img = vec![0x33; N];
    assert_eq!(format(&mut img, ALL).answer, 0);
    img
}

/// After the first put of "dose", cut at k.
fn dose(k: u64) -> Vec<u8> {
    let mut img = formatted();
    put(&mut img, b"dose", &[1, 2, 3], k);
    img
}

/// A dead head at the end of sector 0, and a file behind it: the head's move erases.
fn two_sectors() -> Vec<u8> {
    let mut img = vec![0xFF; N];
    img[4080..4089].copy_from_slice(&[0x00, 0x5A, 0x00, 0xFF, 0, 0, 0, 0, 0]);
    img[4096..4106].copy_from_slice(&[0xA5, 0x5A, 0xFC, 0xFF, 1, 0, 0, 0, b'a', 0]);
    img[4112] = 0x77;
    img
}

/// Slices of these lengths, marked, after a window was handed out into them.
fn window(img: &[u8], ask: Ask, first: u64, lengths: [usize; 3]) -> (Handing, [Vec<u32>; 3]) {
    let [mut kinds, mut addresses, mut bytes] = lengths.map(|l| vec![MARK; l]);
    let handing = plan_out(img, ask, first, [&mut kinds, &mut addresses, &mut bytes]);
    (handing, [kinds, addresses, bytes])
}

/// The numbers in the first slots.
fn rows(slices: &[Vec<u32>; 3], count: u64) -> Vec<Numbers> {
    (0..count as usize).map(|i| [slices[0][i], slices[1][i], slices[2][i]]).collect()
}

/// Done, with these live, dead, free and lost bytes (K3).
fn done(live: u64, dead: u64, free: u64, lost: u64) -> Reply {
    Reply { space: Space { live, dead, free, lost }, ..Reply::default() }
}

/// Everything at once, into slots of which some are left over.
fn hands_out(img: &[u8], ask: Ask, reply: Reply, steps: &[Numbers]) {
    let length = steps.len() + 3;
    let (handing, slices) = window(img, ask, 0, [length; 3]);
    let count = steps.len() as u64;
    assert_eq!(handing, Handing { reply: Reply { steps: count, ..reply }, handed: count });
    assert_eq!(rows(&slices, count), steps);
    assert!(slices.iter().all(|s| s[steps.len()..] == [MARK; 3]));
}

#[test]
fn first_put_byte_by_byte() {
    let steps = [
        [1, 16, 0xA5],
        [1, 17, 0x5A],
        [1, 20, 0x03],
        [1, 21, 0x00],
        [1, 22, 0x00],
        [1, 23, 0x00],
        [1, 18, 0xFE],
        [1, 24, 0x64],
        [1, 25, 0x6F],
        [1, 26, 0x73],
        [1, 27, 0x65],
        [1, 28, 0x80],
        [1, 28, 0x00],
        [1, 32, 0x01],
        [1, 33, 0x02],
        [1, 34, 0x03],
        [1, 18, 0xFC],
    ];
    hands_out(&formatted(), Ask::Put(b"dose", &[1, 2, 3]), done(24, 16, 8152, 0), &steps);
    assert_eq!(record(16, b"dose", &[1, 2, 3]), steps);
}

#[test]
fn replacing_and_removing() {
    let img = dose(ALL);
    let steps = [vec![program(18, 0xF8)], record(40, b"dose", &[4, 5, 6]), vec![program(18, 0x00)]].concat();
    hands_out(&img, Ask::Put(b"dose", &[4, 5, 6]), done(24, 40, 8128, 0), &steps);
    hands_out(&img, Ask::Remove(b"dose"), Reply::default(), &[program(18, 0x00)]);
}

/// Two moves: the record that format wrote, and the file.
#[test]
fn sweep_after_the_first_put() {
    let head_moves =
        |y: u32, x: u32| [(y, 0xA0), (y, 0x80), (y, 0x00), (x + 1, 0x00)].map(|(a, b)| program(a, b)).to_vec();
    let copy = [vec![program(18, 0xF8)], record(40, b"dose", &[1, 2, 3]), vec![program(18, 0x00)]].concat();
    let steps = [head_moves(16, 0), copy, head_moves(40, 16)].concat();
    assert_eq!(steps.len(), 27);
    hands_out(&dose(ALL), Ask::Sweep, Reply { moves: 2, ..done(24, 0, 8128, 40) }, &steps);
}

#[test]
fn a_sweep_that_erases() {
    let first = vec![program(4096, 0xA0), erase(0), program(4096, 0x80), program(4096, 0x00)];
    let copy = [vec![program(4098, 0xF8)], record(4120, b"a", &[0x77]), vec![program(4098, 0x00)]].concat();
    let last = [(4120, 0xA0), (4120, 0x80), (4120, 0x00), (4097, 0x00)].map(|(a, b)| program(a, b)).to_vec();
    let steps = [first, copy, last].concat();
    hands_out(&two_sectors(), Ask::Sweep, Reply { moves: 2, ..done(24, 0, 8144, 24) }, &steps);
}

/// Head, tail and files are those of the image that the steps leave.
#[test]
fn mount_after_a_cut_put() {
    let mounted = |tail| Reply { report: Report { head: 0, tail, files: 0 }, ..done(0, tail, 8192 - tail, 0) };
    let zeros = (20..=24).map(|a| program(a, 0x00)).collect();
    let torn = [vec![program(16, 0xA5), program(17, 0x5A)], zeros, vec![program(18, 0x7F), program(18, 0x00)]].concat();
    hands_out(&dose(1), Ask::Mount, mounted(32), &torn);
    let reserved = [(24, 0x80), (24, 0x00), (18, 0x7E), (18, 0x00)].map(|(a, b)| program(a, b));
    hands_out(&dose(7), Ask::Mount, mounted(40), &reserved);
    hands_out(&formatted(), Ask::Mount, mounted(16), &[]);
}

/// "as many as fit the shortest, from a given step number (0 the first) on"
#[test]
fn windows() {
    let img = formatted();
    let ask = Ask::Put(b"dose", &[1, 2, 3]);
    let list = record(16, b"dose", &[1, 2, 3]);
    for first in 0..20 {
        for lengths in [[0, 0, 0], [5, 5, 5], [1, 4, 9], [9, 1, 4], [4, 9, 1], [3, 0, 3], [40, 40, 18]] {
            let (handing, slices) = window(&img, ask, first, lengths);
            let shortest = *lengths.iter().min().expect("three") as u64;
            let handed = 17u64.saturating_sub(first).min(shortest);
            assert_eq!(handing, Handing { reply: Reply { steps: 17, ..done(24, 16, 8152, 0) }, handed });
            let from = (first as usize).min(17);
            assert_eq!(rows(&slices, handed), list[from..from + handed as usize]);
            assert!(slices.iter().all(|s| s[handed as usize..].iter().all(|&slot| slot == MARK)));
        }
    }
    let (handing, slices) = window(&img, ask, u64::MAX, [3; 3]);
    assert_eq!((handing.handed, handing.reply.steps), (0, 17));
    assert_eq!(slices, [vec![MARK; 3], vec![MARK; 3], vec![MARK; 3]]);
}

/// Windows of any lengths, put together, are the list.
#[test]
fn windows_put_together() {
    let img = dose(ALL);
    let whole = rows(&window(&img, Ask::Sweep, 0, [27; 3]).1, 27);
    for length in [1, 2, 5, 7, 16, 26, 27, 64] {
        let mut together = Vec::new();
        while together.len() < 27 {
            let (handing, slices) = window(&img, Ask::Sweep, together.len() as u64, [length, length + 3, length + 1]);
            together.extend(rows(&slices, handing.handed));
        }
        assert_eq!(together, whole);
    }
}

/// "Carrying out the first k planned steps gives the direct call's image at allowance k".
#[test]
fn carried_out() {
    let img = two_sectors();
    let list = rows(&window(&img, Ask::Sweep, 0, [22; 3]).1, 22);
    let mut flash = img.clone();
    for k in 0..=22 {
        let mut direct = img.clone();
        sweep(&mut direct, k);
        assert_eq!(flash, direct, "after {k} steps");
        match list.get(k as usize) {
            Some([1, at, byte]) => flash[*at as usize] = *byte as u8,
            Some([_, at, _]) => flash[*at as usize..][..4096].fill(0xFF),
            None => {}
        }
    }
}

/// A refusal hands nothing out, and every number is 0, but a bad name's reason.
#[test]
fn refusals() {
    let blank = vec![0xFF; N];
    let refused = [
        (22, 0, vec![0xFF; 4096], Ask::Mount),
        (22, 4, dose(ALL), Ask::Put(b"a/", b"")),
        (22, 1, dose(ALL), Ask::Remove(b"")),
        (6, 0, blank.clone(), Ask::Mount),
        (6, 0, blank, Ask::Sweep),
        (16, 0, dose(7), Ask::Put(b"dose", b"")),
        (2, 0, dose(ALL), Ask::Remove(b"rose")),
        (28, 0, dose(ALL), Ask::Put(b"rose", &[0; 2025])),
    ];
    for (answer, reason, img, ask) in refused {
        let (handing, slices) = window(&img, ask, 0, [4; 3]);
        let reply = Reply { name: NameFault { reason, place: 0 }, ..Reply::refusal(answer) };
        assert_eq!(handing, Handing { reply, handed: 0 });
        assert_eq!(slices, [vec![MARK; 4], vec![MARK; 4], vec![MARK; 4]]);
    }
}
