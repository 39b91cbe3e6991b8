//! Images aimed at rules that random ones seldom come to.
use crate::images::MARKS;
use crate::rng::Rng;
use model::*;

/// Dirt in the free run at the edges of its rule, mostly under a CLEAN head.
pub fn dirty_free_run(r: &mut Rng, img: &mut [u8]) {
    let Ok(c) = read_image(img) else { return };
    let n = img.len() as u64;
    if r.chance(75) {
        img[c.head as usize] = r.of(&[0xA0, 0x80]);
    }
    let (sector, f) = (floor(c.tail), floor(c.head));
    for _ in 0..1 + r.below(2) {
        let (low, near) = (r.below(f + 1), r.below(24));
        let last = (sector + SECTOR - 1).saturating_sub(near);
        let a = r.of(&[c.tail + near, last, sector + SECTOR + near, low, n - 1, n - 1 - near, f.saturating_sub(1)]);
        if a < n && img[a as usize] == 0xFF {
            img[a as usize] = r.of(&[0x33u8, 0x00, 0xFE]);
        }
    }
}

/// Writes a record of a name and plain data; gives the place behind it.
pub fn write_record(img: &mut [u8], at: u64, first: [u8; 3], name: &[u8], data: &[u8]) -> u64 {
    let (p, n) = (at as usize, name.len());
    let size = size_of(n as u64, data.len() as u64);
    let end = p + size as usize;
    img[p..p + 3].copy_from_slice(&first);
    img[p + 4..p + 8].copy_from_slice(&(data.len() as u32).to_le_bytes());
    img[p + 8..p + 8 + n].copy_from_slice(name);
    img[p + 8 + n] = 0;
    let data_at = end - up8(data.len() as u64) as usize;
    img[data_at..data_at + data.len()].copy_from_slice(data);
    end as u64
}

/// A chain of these files, names and statuses, with dead records of their names between; from 0 or across the turn. Gives
/// the image, or none if it is too short.
pub fn chain_of(r: &mut Rng, n: usize, files: &[(Vec<u8>, u8)]) -> Option<Vec<u8>> {
    let mut records: Vec<(&[u8], u8)> = Vec::new();
    for (name, status) in files {
        let dead = r.chance(10).then_some(DELETED);
        records.extend(dead.into_iter().chain([*status]).map(|status| (&name[..], status)));
    }
    let mut img = vec![0xFF; n];
    let head = r.of(&[0, 16, floor(n as u64 / 2), floor(n as u64 / 2) + 40, n as u64 - SECTOR]);
    let mut at = write_record(&mut img, head, [0x00, 0x5A, 0x00], b"", b"");
    let mut end = n as u64;
    for (name, status) in records {
        let data = vec![0x11; r.below(20) as usize];
        let size = size_of(name.len() as u64, data.len() as u64);
        if at + size > end {
            if end < n as u64 || size > floor(head) {
                return None;
            }
            // a marker, unless the chain is at N
            if let Some(marker) = img.get_mut(at as usize..at as usize + 3) {
                marker.copy_from_slice(&[0xFA, 0x5A, 0xF0]);
            }
            (at, end) = (0, floor(head));
        }
        at = write_record(&mut img, at, [0xA5, 0x5A, status], name, &data);
    }
    Some(img)
}

/// A record that ends at `end` or a few bytes before it.
fn fill_up(r: &mut Rng, img: &mut [u8], at: u64, end: u64, name: &[u8]) -> u64 {
    let gap = r.of(&[0, 8, 16, 24, 32, 40, 64]);
    let room = (end - at).saturating_sub(gap + size_of(name.len() as u64, 0)).max(8);
    let mut data = vec![r.of(&[0x11, 0x77, 0x00]); room as usize];
    for _ in 0..r.below(4) {
        let a = r.below(room / 8) as usize * 8;
        data[a..a + 2].copy_from_slice(&[r.of(&MARKS), 0x5A]);
    }
    let status = if name.is_empty() { 0x00 } else { r.of(&[0x00, 0xFC, 0xF8]) };
    write_record(img, at, [0xA5, 0x5A, status], name, &data)
}

/// A settled image whose tail is near N or, after a turn, near floor(h): what is
/// put next may need a marker, or just miss its room.
pub fn tight(r: &mut Rng, n: usize) -> Vec<u8> {
    let mut img = vec![0xFF; n];
    let end = n as u64;
    let sectors = end / SECTOR;
    let h = (1 + r.below(sectors - 1)) * SECTOR + r.of(&[0, 8, 16, 80, 2048, 3000, 3800]);
    let f = floor(h);
    let first_live = if r.chance(40) { 0xFC } else { 0x00 };
    let mut p = write_record(&mut img, h, [0x00, 0x5A, first_live], b"head", &[0x22; 5]);
    if r.chance(50) {
        p = write_record(&mut img, p, [0xA5, 0x5A, 0xFC], b"b", &[0x00, 0x5A, 0x33]);
    }
    let first_name = r.of(&[&b""[..], b"", b"filler"]);
    p = fill_up(r, &mut img, p, end, first_name);
    if r.chance(50) {
        // the turn is made
        if p < end {
            img[p as usize..p as usize + 3].copy_from_slice(&[0xFA, 0x5A, 0xF0]);
        }
        let mut q = 0;
        if r.chance(50) {
            q = write_record(&mut img, q, [0xA5, 0x5A, 0xFC], b"a", &[0x44; 9]);
        }
        if r.chance(60) {
            fill_up(r, &mut img, q, f, b"");
        }
    }
    img
}

/// An F8 record that has an FC of its name: a file replaced earlier comes back.
pub fn superseded(r: &mut Rng, img: &mut [u8]) {
    let Ok(c) = read_image(img) else { return };
    let replaced =
        |x: &&Record| x.status == DELETED && c.live().any(|y| y.status == COMMITTED && y.name(img) == x.name(img));
    let old: Vec<u64> = c.records.iter().filter(replaced).map(|x| x.at).collect();
    if !old.is_empty() {
        img[r.of(&old) as usize + 2] = MIGRATING;
    }
}

/// A head that is an F8 with an FC of its name, so that a CLEAN or START may
/// follow it (decision 11).
pub fn superseded_head(r: &mut Rng, n: usize) -> Vec<u8> {
    let mut img = vec![0xFF; n];
    let h = r.of(&[0, 16, SECTOR, SECTOR + 64]);
    let mut p = write_record(&mut img, h, [r.of(&[0x00, 0x00, 0xA0]), 0x5A, 0xF8], b"a", &[0xA5, 0x5A, 0x01]);
    let second = [r.of(&[0xA0, 0x80, 0x00, 0xA5]), 0x5A, r.of(&[0x00, 0xFC, 0x70])];
    p = write_record(&mut img, p, second, b"b", &[0x66; 4]);
    write_record(&mut img, p, [0xA5, 0x5A, 0xFC], b"a", &[0x55; 12]);
    img
}

/// "a reserved byte not FF", of some record or of the marker, in an image that is
/// read. Gives whether it is.
pub fn reserved_byte(r: &mut Rng, img: &mut [u8]) -> bool {
    let Ok(c) = read_image(img) else { return false };
    let things: Vec<u64> = c.records.iter().map(|x| x.at).chain(c.marker).collect();
    img[r.of(&things) as usize + 3] = r.of(&[0x00, 0x7F, 0xFE]);
    true
}

/// A torn record, and a byte just behind the 16 that it counts: not the last thing,
/// whatever its length bytes say. Gives whether there was a place for it.
pub fn behind_torn(r: &mut Rng, img: &mut [u8]) -> bool {
    let Ok(c) = read_image(img) else { return false };
    let end = if c.turned { floor(c.head) } else { img.len() as u64 };
    if !rules::settled(img, &c) || c.tail + 64 > end {
        return false;
    }
    let p = c.tail as usize;
    img[p..p + 2].copy_from_slice(&[0xA5, r.of(&[0xFF, 0x5A])]);
    if r.chance(70) {
        img[p + 4..p + 8].copy_from_slice(&[r.of(&[3, 8, 40]), 0, 0, 0]);
    }
    img[p + 16 + r.below(8) as usize] = 0x33;
    true
}

/// An unfinished thing at the tail.
pub fn unfinished_last(r: &mut Rng, img: &mut [u8]) {
    let Ok(c) = read_image(img) else { return };
    let p = c.tail as usize;
    if p + 64 > img.len() {
        return;
    }
    let high = r.of(&[0xFF, 0x5A, 0xDB, 0x7E]);
    match r.below(5) {
        0 => img[p] = r.of(&[0xA5, 0xBD, 0xE7]),
        1 => img[p..p + 6].copy_from_slice(&[0xA5, high, 0xFF, 0xFF, 3, 0]),
        2 => img[p..p + 11].copy_from_slice(b"\xA5\x5A\xFE\xFF\x03\0\0\0abc"),
        3 => {
            img[p..p + 11].copy_from_slice(b"\xA5\x5A\xFE\xFF\x03\0\0\0abc");
            img[p + 8 + r.below(4) as usize] = r.of(&[0x80, 0xE1, 0xC0, 0x7F]);
        }
        _ => img[p..p + 17].copy_from_slice(b"\xA5\x5A\xFE\xFF\x03\0\0\0abc\0\xFF\xFF\xFF\xFF\x07"),
    }
}
