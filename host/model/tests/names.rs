//! Request K5: names with what the check says of them, worked out by hand, and what the
//! calls give back of it.
use model::*;

const ALL: u64 = u64::MAX;

fn fault(reason: u32, place: u64) -> NameFault {
    NameFault { reason, place }
}

/// A name of so many bytes of one kind.
fn bytes(count: usize, byte: u8) -> Vec<u8> {
    vec![byte; count]
}

/// 63 letters with one byte changed.
fn longest(place: usize, byte: u8) -> Vec<u8> {
    let mut name = bytes(63, b'a');
    name[place] = byte;
    name
}

/// "empty, too long, bad byte with the first one's place (from 0; else 0), or final slash,
/// tested in that order (1 to 4 ..)"
fn table() -> Vec<(Vec<u8>, NameFault)> {
    let of = |name: &[u8], reason, place| (name.to_vec(), fault(reason, place));
    vec![
        // nothing is wrong; 20 hex may stand inside
        of(b"a", 0, 0),
        of(b"dose", 0, 0),
        of(b"night basal", 0, 0),
        of(b"a b", 0, 0),
        of(b"a  b", 0, 0),
        of(b"/a", 0, 0),
        of(b"/ a", 0, 0),
        of(b"a/b", 0, 0),
        of(b"//a", 0, 0),
        of(b"!", 0, 0),
        of(b"~", 0, 0),
        of(b"!~", 0, 0),
        of(b"\x21\x20\x7E", 0, 0),
        of(&bytes(63, b'a'), 0, 0),
        of(&longest(1, b' '), 0, 0),
        of(&longest(61, b' '), 0, 0),
        // 1
        of(b"", 1, 0),
        // 2, whatever the bytes are
        of(&bytes(64, b'a'), 2, 0),
        of(&bytes(64, b' '), 2, 0),
        of(&bytes(64, b'/'), 2, 0),
        of(&bytes(64, 0xFF), 2, 0),
        of(&bytes(70, b'a'), 2, 0),
        of(&bytes(4096, 0x00), 2, 0),
        // 3, a space at either end
        of(b" ", 3, 0),
        of(b"  ", 3, 0),
        of(b" a", 3, 0),
        of(b"a ", 3, 1),
        of(b"a b ", 3, 3),
        of(b" a ", 3, 0),
        of(b" /", 3, 0),
        of(&bytes(63, b' '), 3, 0),
        of(&longest(0, b' '), 3, 0),
        of(&longest(62, b' '), 3, 62),
        // 3, at both edges and beyond: 1F, 7F, 80, FF, 00, first, inside and last
        of(b"\x1F", 3, 0),
        of(b"\x7F", 3, 0),
        of(b"\x80", 3, 0),
        of(b"\xFF", 3, 0),
        of(b"\x00", 3, 0),
        of(b"\x0A", 3, 0),
        of(b"\x7Fa", 3, 0),
        of(b"a\x1Fa", 3, 1),
        of(b"a\x7Fa", 3, 1),
        of(b"ab\x80", 3, 2),
        of(b"abc\xFF", 3, 3),
        of(b"dose\x00", 3, 4),
        of(&longest(62, 0x7F), 3, 62),
        // 3, the first one's place
        of(b"aa\x1F\x7Fa", 3, 2),
        of(b"a b\x7F ", 3, 3),
        of(b" \x7F", 3, 0),
        // 3 before 4
        of(b"a\x7F/", 3, 1),
        of(b"a\x80/", 3, 1),
        of(b"\x1F/", 3, 0),
        // 4; a space before the slash is no last byte
        of(b"/", 4, 0),
        of(b"a/", 4, 0),
        of(b"a /", 4, 0),
        of(b"//", 4, 0),
        of(&longest(62, b'/'), 4, 0),
    ]
}

#[test]
fn what_is_wrong() {
    for (name, says) in table() {
        assert_eq!(name_fault(&name), says, "{name:02x?}");
        assert_eq!(good_name(&name), says == fault(0, 0), "{name:02x?}");
    }
}

fn formatted(n: usize) -> Vec<u8> {
    let mut img = vec![0x33; n];
    assert_eq!(format(&mut img, ALL).answer, 0);
    img
}

/// Put, get and remove of this name, and the plans of put and remove.
fn replies(img: &mut [u8], name: &[u8]) -> [Reply; 5] {
    let plans = [Ask::Put(name, b"1"), Ask::Remove(name)].map(|ask| {
        let Handing { reply, handed } = plan_out(img, ask, 0, [&mut [], &mut [], &mut []]);
        assert_eq!(handed, 0);
        reply
    });
    let calls = [put(img, name, b"1", ALL), get(img, name), remove(img, name, ALL)];
    [calls[0], calls[1], calls[2], plans[0], plans[1]]
}

/// "Put, get and remove pass both on beside 22, in place of zeros": on an image that is
/// settled, one that has no head, and one that breaks a rule.
#[test]
fn beside_22() {
    let settled = formatted(8192);
    let mut broken = settled.clone();
    broken[3] = 0x00;
    for img in [settled, vec![0xFF; 8192], broken] {
        for (name, says) in table().into_iter().filter(|row| row.1.reason > 0) {
            let mut after = img.clone();
            let refused = Reply { name: says, ..Reply::refusal(22) };
            assert_eq!(replies(&mut after, &name), [refused; 5], "{name:02x?}");
            assert_eq!(after, img);
        }
    }
}

/// "or 0 where N is bad"
#[test]
fn where_n_is_bad() {
    for n in [0, 4096, 8191, 8193] {
        for (name, _) in table() {
            assert_eq!(replies(&mut vec![0xFF; n], &name), [Reply::refusal(22); 5], "{name:02x?}");
        }
    }
}

/// Every other answer: zeros.
#[test]
fn on_other_answers() {
    let good = b"night basal";
    let mut unsettled = formatted(8192);
    assert_eq!(put(&mut unsettled, good, b"1", 1).answer, 4);
    let mut broken = formatted(8192);
    broken[3] = 0x00;
    for (answer, mut img) in [(5, broken), (6, vec![0xFF; 8192]), (16, unsettled)] {
        assert_eq!(replies(&mut img, good), [Reply::refusal(answer); 5]);
    }
    let mut img = formatted(8192);
    assert_eq!(get(&img, good), Reply::refusal(2));
    assert_eq!(remove(&mut img, good, ALL), Reply::refusal(2));
    assert_eq!(put(&mut img, good, &[7; 8000], ALL), Reply::refusal(28));
    assert_eq!(put(&mut img, good, b"1", 0), Reply::refusal(4));
}

/// 8 bytes of header; "night basal" and its 00, padded to 16; the content, padded to 8: 32
/// bytes at 16. Its steps are 11 + 1 + 10.
#[test]
fn a_name_with_a_space() {
    let mut img = formatted(8192);
    let space = Space { live: 32, dead: 16, free: 8144, lost: 0 };
    assert_eq!(put(&mut img, b"night basal", &[7], ALL), Reply { space, steps: 22, ..Reply::default() });
    let record = b"\xA5\x5A\xFC\xFF\x01\0\0\0night basal\0\xFF\xFF\xFF\xFF\x07\xFF\xFF\xFF\xFF\xFF\xFF\xFF";
    assert_eq!(img[16..48], record[..]);
    let content = Extent { offset: 40, length: 1 };
    assert_eq!(get(&img, b"night basal"), Reply { extent: content, ..Reply::default() });
    let extent = Extent { offset: 24, length: 11 };
    assert_eq!(list(&img, 0), Reply { extent, size: 1, ..Reply::default() });
    assert_eq!(get(&img, b"nightbasal"), Reply::refusal(2));
    assert_eq!(remove(&mut img, b"night basal", ALL), Reply { steps: 1, ..Reply::default() });
}

/// "The reading's name rule changes with it": of a live file, and of no other.
#[test]
fn stored_names() {
    for (name, says) in table().into_iter().filter(|row| (1..=63).contains(&row.0.len()) && !row.0.contains(&0)) {
        let mut img = formatted(8192);
        let end = 24 + name.len();
        img[16..24].copy_from_slice(&[0xA5, 0x5A, 0xFC, 0xFF, 0, 0, 0, 0]);
        img[24..end].copy_from_slice(&name);
        img[end] = 0;
        let answer = if says.reason == 0 { 0 } else { 5 };
        assert_eq!(mount(&mut img, ALL).answer, answer, "{name:02x?}");
        assert_eq!(list(&img, 0).answer, answer, "{name:02x?}");
        // dead, it may be anything
        img[18] = 0x00;
        assert_eq!(mount(&mut img, ALL).answer, 0, "{name:02x?}");
    }
}
