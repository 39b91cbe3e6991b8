//! What a call on an image shows, so that a tester can tell what it covered.
use crate::call::Call;
use crate::names;
use model::faults::{self, Fault};
use model::*;

fn add(t: &mut Vec<&'static str>, found: &[(&'static str, bool)]) {
    t.extend(found.iter().filter(|x| x.1).map(|x| x.0));
}

/// The state of an image.
fn of_image(img: &[u8], t: &mut Vec<&'static str>) {
    let n = img.len() as u64;
    t.push(match n {
        8192 => "N 8192",
        12288 => "N 12288",
        _ if good_length(n) => "N above 12288",
        _ => "bad length",
    });
    if !good_length(n) {
        return;
    }
    let Ok(c) = read_image(img) else { return };
    let f = floor(c.head);
    let first = &c.records[0];
    let second = c.records.get(1);
    let last = &c.records[c.records.len() - 1];
    let clean = first.magic == CLEAN;
    let marked = second.filter(|r| r.marked());
    let dirty = c.free_run(n).iter().any(|&(from, to)| !blank(img, from, to));
    let f8 = c.live().filter(|r| r.status == MIGRATING).count();
    let unfinished = last.unfinished() || c.torn_wrap.is_some();
    let at_n = c.tail == n || (c.turned && c.marker.is_none() && c.torn_wrap.is_none());
    t.push(if c.turned { "turned" } else { "not turned" });
    let found = [
        ("floor(h) > 0", f > 0),
        ("chain ends at N", at_n),
        ("T = N", c.tail == n),
        ("T = 0 after the turn", c.turned && c.tail == 0),
        ("T = floor(h)", c.turned && c.tail == f),
        ("marker", c.marker.is_some()),
        ("torn", last.torn),
        ("torn wrap", c.torn_wrap.is_some()),
        ("reserved, name cut", last.missing.is_some()),
        ("reserved, content cut", last.status == RESERVED && last.missing.is_none()),
        ("START, next CLEAN", !clean && marked.is_some_and(|y| y.magic == CLEAN)),
        ("START, next START", !clean && marked.is_some_and(|y| y.magic == START)),
        ("START, next CLEAN at 0", !clean && marked.is_some_and(|y| y.magic == CLEAN && y.at == 0)),
        ("next at 0", second.is_some_and(|y| y.at == 0)),
        ("CLEAN head", clean),
        ("CLEAN head at 0", clean && c.head == 0),
        ("CLEAN head, dirty free run", clean && dirty),
        ("CLEAN head, marked next", clean && marked.is_some()),
        ("superseded F8", !c.superseded.is_empty()),
        ("superseded F8 and unfinished", !c.superseded.is_empty() && unfinished),
        ("superseded head, marked next", c.superseded.first() == Some(&0) && marked.is_some()),
        ("several live F8", f8 >= 2),
        ("live head", first.live),
        ("wear record", c.records.iter().any(|r| r.status == WEAR)),
        ("reserved after the turn", last.status == RESERVED && last.turned),
        ("colliding names", bits::colliding(c.live().map(|x| x.name(img))) > 0),
        ("file name with a space", c.live().any(|x| x.name(img).contains(&b' '))),
    ];
    add(t, &found);
    t.extend(of_bytes(img, &c));
}

/// The bytes that only a cut inside a byte leaves (K14), and marks of them in old data.
pub fn of_bytes(img: &[u8], c: &Chain) -> Vec<&'static str> {
    let b = |a: u64| byte(img, a);
    let (first, last) = (&c.records[0], &c.records[c.records.len() - 1]);
    let low_of_second = c.records.get(1).filter(|y| !y.torn).map(|y| b(y.at));
    let wrap = c.torn_wrap;
    let new_mark = |p: &[u8]| matches!(p, [0x80 | 0xA4 | 0xA1, 0x5A, ..]);
    let odd = |r: &Record| !r.torn && !matches!(r.status, RESERVED | COMMITTED | MIGRATING | WEAR | DELETED);
    let found = [
        b(c.head) == 0x80,
        low_of_second == Some(0x80),
        low_of_second == Some(0xA4),
        low_of_second == Some(0xA1),
        last.torn && b(last.at) != 0xA5,
        last.torn && !matches!(b(last.at + 1), 0xFF | 0x5A),
        last.torn && !matches!(b(last.at + 8), 0xFF | 0x00),
        wrap.is_some_and(|a| b(a) != 0xFA),
        wrap.is_some_and(|a| !matches!(b(a + 1), 0xFF | 0x5A)),
        wrap.is_some_and(|a| b(a + 2) != 0xFF),
        last.missing.is_some_and(|a| b(a) != 0xFF),
        c.records.iter().any(odd),
        !first.live && first.data(img).chunks(8).any(new_mark),
    ];
    BYTE_TAGS.into_iter().zip(found).filter(|t| t.1).map(|t| t.0).collect()
}

/// The tags of `of_bytes`, in its order.
pub const BYTE_TAGS: [&str; 13] = [
    "head 80",
    "second 80",
    "second A4",
    "second A1",
    "torn, first byte partly",
    "torn, second byte partly",
    "torn, byte 8 odd",
    "torn wrap, first partly",
    "torn wrap, second partly",
    "torn wrap, status partly",
    "reserved, end 80 or more",
    "dead status, odd",
    "new marks in X",
];

/// What a put does with the room.
fn of_put(img: &[u8], name: &[u8], data: &[u8], t: &mut Vec<&'static str>) {
    let (n, d) = (img.len() as u64, data.len() as u64);
    if !good_length(n) || !good_name(name) {
        return;
    }
    let Ok(c) = rules::read_settled(img) else { return };
    match c.find_live(img, name).map(|r| r.status) {
        Some(COMMITTED) => t.push("put replaces FC"),
        Some(_) => t.push("put replaces F8"),
        None => {}
    }
    let s = size_of(name.len() as u64, d);
    let room = |d| put_room(img, &c, name, d);
    let found = [
        ("put with marker", room(d).is_some_and(|p| p.marker.is_some())),
        ("put ends at N", room(d).is_some_and(|p| p.at + s == n)),
        ("put fills its room", room(d).is_some() && room(d + 1).is_none()),
        ("put one byte too long", room(d).is_none() && d > 0 && room(d - 1).is_some()),
    ];
    add(t, &found);
    t.extend(of_room(img, &c, name, d));
}

/// Which part of the room rule decides about a file of so many bytes.
pub fn of_room(img: &[u8], c: &Chain, name: &[u8], d: u64) -> Vec<&'static str> {
    let s = size_of(name.len() as u64, d);
    let Some(placed) = c.place(img.len() as u64).fit(s) else { return vec![] };
    let sizes = sizes_behind(img, c, name, s, placed.at);
    let fit = |sizes: &[u64]| placed.next.fit_all(sizes);
    let room = fit(&sizes);
    let without = |fault| faults::with(fault, || put_room(img, c, name, d).is_some());
    let (there, most) = sizes.split_at(sizes.len() - 2);
    let replaced = c.find_live(img, name);
    let as_largest = replaced.map(|x| [there, &[x.size.max(most[0]); 2]].concat());
    let joining = c.in_head_sector(placed.at).then_some(s);
    let with_replaced: Vec<u64> =
        c.live().filter(|x| c.in_head_sector(x.at)).map(|x| x.size).chain(joining).chain([most[0]; 2]).collect();
    let found = [
        !room && fit(&sizes[..sizes.len() - 1]),
        room && as_largest.is_some_and(|sizes| !fit(&sizes)),
        room && !fit(&with_replaced),
        !room && without(Fault::RoomAsIn01),
        !room && without(Fault::OthersNotCounted),
        !room && without(Fault::NewNotCounted),
    ];
    ROOM_TAGS.into_iter().zip(found).filter(|t| t.1).map(|t| t.0).collect()
}

/// The tags of `of_room`, in its order.
pub const ROOM_TAGS: [&str; 6] = [
    "room for one more, not two",
    "room, the replaced one out",
    "room, the replaced one out of the head's sector",
    "no room, but by 01's rule",
    "no room, but without the others there",
    "no room, but without the new one there",
];

pub fn of(img: &[u8], call: &Call, reply: &Reply, after: &[u8]) -> Vec<&'static str> {
    let mut t = Vec::new();
    of_image(img, &mut t);
    if reply.answer == 0 && reply.steps > 0 && reply.steps == call.allowance() {
        t.push("allowance is the need");
    }
    if let Call::Put(name, ..) | Call::Get(name) | Call::Remove(name, _) = call {
        let good = good_length(img.len() as u64);
        t.extend(names::tag(name).filter(|_| good));
    }
    match call {
        Call::Put(name, data, _) => of_put(img, name, data, &mut t),
        Call::Sweep(_) => {
            let sectors = img.chunks(SECTOR as usize).zip(after.chunks(SECTOR as usize));
            let erased: Vec<bool> = sectors.map(|(before, after)| !all_ff(before) && all_ff(after)).collect();
            let found = [
                ("several moves", reply.moves >= 2),
                ("five moves", reply.moves == 5),
                ("sweep erases", erased.contains(&true)),
                ("sweep erases several", erased.iter().filter(|&&e| e).count() >= 2),
                ("sweep erases to N", erased.last() == Some(&true)),
            ];
            add(&mut t, &found);
        }
        _ => {}
    }
    t
}
