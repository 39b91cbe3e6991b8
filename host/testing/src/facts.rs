//! What holds of every image in a history, besides demand 3: the ground that
//! the proof's invariant stands on. A broken fact is no violation, but news.
use model::*;
use std::collections::BTreeMap;

/// How often each kind of image was seen, and each fact found broken.
#[derive(Default)]
pub struct Facts {
    pub kinds: BTreeMap<String, u64>,
    pub broken: BTreeMap<&'static str, u64>,
    pub most_f8: usize,
}

/// A mark that the head search or the walk could take for a record.
fn marks_in(img: &[u8], from: u64, to: u64) -> bool {
    (from..to).step_by(8).any(|a| matches!(magic(img, a), START | CLEAN | RECORD))
}

/// A fact and whether it is broken.
type Broken = (&'static str, bool);

impl Facts {
    pub fn look(&mut self, img: &[u8]) {
        let Ok(c) = read_image(img) else {
            *self.broken.entry("the image is read").or_default() += 1;
            return;
        };
        let mut found = vec![];
        layout(img, &c, &mut found);
        for r in &c.records {
            record(img, r, &mut found);
        }
        walked(img, &c, &mut found);
        moving(img, &c, &mut found);
        for (fact, _) in found.into_iter().filter(|f| f.1) {
            *self.broken.entry(fact).or_default() += 1;
        }
        let f8 = c.live().filter(|r| r.status == MIGRATING).count();
        self.most_f8 = self.most_f8.max(f8);
        *self.kinds.entry(kind(img, &c)).or_default() += 1;
    }
}

fn unfinished(c: &Chain) -> bool {
    c.torn_wrap.is_some() || c.records.last().is_some_and(Record::unfinished)
}

fn layout(img: &[u8], c: &Chain, found: &mut Vec<Broken>) {
    found.push(("no mark in the lost region", marks_in(img, floor(c.head), c.head)));
    if let Some(m) = c.marker {
        found.push(("FF after a marker", !all_ff(&img[m as usize + 3..])));
    }
    found.push(("one superseded F8 at most", c.superseded.len() > 1));
    found.push(("nothing unfinished with a superseded F8", unfinished(c) && !c.superseded.is_empty()));
}

fn record(img: &[u8], r: &Record, found: &mut Vec<Broken>) {
    let end = r.at + r.size;
    if r.torn {
        found.push(("a torn record's bytes 9 to 15 are FF", !blank(img, r.at + 9, end)));
        return;
    }
    let named = r.at + 8 + r.name_len + 1;
    let empty = r.name_len == 0;
    let cut = r.missing.is_some() || empty;
    found.extend([
        ("name padding is FF", !blank(img, named, r.data_at)),
        ("data padding is FF", !blank(img, r.data_at + r.data_len, end)),
        // 7F, where a dead record's name was cut inside a byte
        ("names are bytes 20 to 7F", !r.name(img).iter().all(|b| (0x20..=0x7F).contains(b))),
        ("files' names are bytes 20 to 7E", r.live && !r.name(img).iter().all(|b| (0x20..=0x7E).contains(b))),
        ("no name begins with a space", r.name(img).starts_with(b" ")),
        ("no file's name ends with a space", r.live && r.name(img).ends_with(b" ")),
        ("a dead status is part of FC or 7F", r.status & 0x80 != 0 && r.status & 0x03 != 0 && r.status != RESERVED),
        ("a file has a name", empty && matches!(r.status, COMMITTED | MIGRATING)),
        ("FF after a cut name", cut && !blank(img, r.data_at, end)),
    ]);
}

/// Where the walk from 0 stops.
fn walked(img: &[u8], c: &Chain, found: &mut Vec<Broken>) {
    let (stop, _) = walk(img);
    let clean = c.records[0].magic == CLEAN;
    let torn = c.records.last().filter(|r| r.torn);
    if c.turned {
        let at = torn.filter(|r| r.turned).map_or(c.tail, |r| r.at);
        found.push(("turned: the walk stops at T or at the torn record", stop != at));
    } else if !clean {
        found.push(("not turned: the walk stops at 0", stop != 0));
    } else if c.head == 0 {
        found.push(("CLEAN at 0: the walk stops at T", stop != c.tail));
    }
}

/// Images in the middle of a move.
fn moving(img: &[u8], c: &Chain, found: &mut Vec<Broken>) {
    let clean = c.records[0].magic == CLEAN;
    let second = c.records.get(1).filter(|r| r.marked());
    let other = unfinished(c) || !c.superseded.is_empty();
    found.push(("a move's image has nothing else to repair", (clean || second.is_some()) && other));
    found.push(("no second mark after a CLEAN head", clean && second.is_some()));
    if clean {
        let marks = c.free_run(img.len() as u64).iter().any(|&(from, to)| marks_in(img, from, to));
        found.push(("CLEAN head: no mark in the free run", marks));
    }
    if let Some(y) = second {
        let x = &c.records[0];
        found.push(("second mark: the head is dead", matches!(x.status, RESERVED | COMMITTED | MIGRATING)));
        let kept = (x.data_at..x.data_at + x.data_len).step_by(8).any(|a| marks_in(img, a, a + 1));
        found.push(("second START: the head's data is clean", y.magic == START && kept));
    }
}

/// What a move's steps (c) and (f) leave of a mark; cut inside, any part of 5A.
fn cleaned_mark(img: &[u8], at: u64) -> bool {
    let [low, high] = [img[at as usize], img[at as usize + 1]];
    matches!(low, 0x00 | 0xA0 | 0xA5 | 0x80 | 0xA4 | 0xA1) && high & !0x5A == 0 && high != 0x5A
}

/// A name for the kind of image, for the table of kinds seen.
fn kind(img: &[u8], c: &Chain) -> String {
    let (n, f) = (img.len() as u64, floor(c.head));
    let head = if c.records[0].magic == CLEAN { "CLEAN" } else { "START" };
    let next = match c.records.get(1).filter(|r| r.marked()) {
        None => "plain",
        Some(y) if y.magic == START => "START",
        Some(y) if floor(y.at) == f => "CLEAN, same sector",
        Some(y) if y.at == 0 => "CLEAN at 0",
        Some(_) => "CLEAN, later sector",
    };
    let last = match c.records.last() {
        _ if c.torn_wrap.is_some() => "torn wrap",
        Some(r) if r.torn => "torn",
        Some(r) if r.status == RESERVED => "reserved",
        _ => "finished",
    };
    let turn = match (c.turned, c.marker.or(c.torn_wrap)) {
        (false, _) => "straight",
        (true, Some(_)) => "turned by marker",
        (true, None) => "turned at N",
    };
    let tail = match c.tail {
        0 => "T = 0",
        t if t == n => "T = N",
        t if c.turned && t == f => "T = floor(h)",
        _ => "T",
    };
    let lost = match () {
        _ if c.head == f => "h = floor(h)",
        _ if cleaned_mark(img, f) => "lost bytes, first a cleaned mark",
        _ => "lost bytes",
    };
    let at = if c.head == 0 { " at 0" } else { "" };
    format!("head {head}{at} | next {next} | last {last} | superseded {} | {turn}, {tail} | {lost}", c.superseded.len())
}
