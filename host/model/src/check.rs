//! K13: the check of an image. "Report the first broken rule in reading order with its
//! address (the later of two), or settled, or needing recovery with 01's number of the
//! repair that comes first." Reading order is the chain's, then the free run's as 01
//! writes it, [T, N) before [0, floor(h)). All faults of what is read are gathered, and
//! the first of them is told.
use crate::geometry::*;
use crate::good_name;
use crate::head::find_head;
use crate::torn::{torn_shape, torn_wrap_shape};

/// "The rules, at one address in this order".
#[derive(Clone, Copy, PartialEq, Eq, PartialOrd, Ord, Debug)]
pub enum Rule {
    Head,
    Unfinished,
    Header,
    Name,
    End,
    Mark,
    Free,
}

impl Rule {
    pub const ALL: [Rule; 7] =
        [Rule::Head, Rule::Unfinished, Rule::Header, Rule::Name, Rule::End, Rule::Mark, Rule::Free];

    pub fn word(self) -> &'static str {
        ["head", "unfinished", "header", "name", "end", "mark", "free"][self as usize]
    }
}

#[derive(Clone, Copy, PartialEq, Eq, Debug)]
pub enum Verdict {
    Settled,
    /// the number of the repair
    Recovery(u32),
    Broken(Rule, u64),
}

impl std::fmt::Display for Verdict {
    /// The line that K13's program prints.
    fn fmt(&self, f: &mut std::fmt::Formatter) -> std::fmt::Result {
        match self {
            Verdict::Settled => write!(f, "settled"),
            Verdict::Recovery(number) => write!(f, "recovery {number}"),
            Verdict::Broken(rule, at) => write!(f, "broken {} {at}", rule.word()),
        }
    }
}

/// A record as far as it was read: header and name.
struct Seen {
    at: u64,
    magic: u16,
    status: u8,
    torn: bool,
    name: Vec<u8>,
}

impl Seen {
    /// "A torn record's first byte is on the way to A5": it is no mark.
    fn marked(&self) -> bool {
        !self.torn && matches!(self.magic, START | CLEAN)
    }

    /// "An FC or F8 record with an empty name .. is never a file".
    fn file(&self, status: u8) -> bool {
        !self.torn && self.status == status && !self.name.is_empty()
    }

    /// Both have this status and one name.
    fn twin(&self, other: &Seen, status: u8) -> bool {
        self.file(status) && other.file(status) && self.name == other.name
    }
}

/// What is read of the chain: its records, its faults, and where it ends if it does.
struct Followed {
    n: u64,
    head: u64,
    records: Vec<Seen>,
    faults: Vec<(Rule, u64)>,
    turned: bool,
    tail: Option<u64>,
    /// an unfinished record that was read
    open: Option<u64>,
    torn_wrap: bool,
}

/// What the next step along the chain comes to.
enum Way {
    On(u64),
    Stop,
}

impl Followed {
    fn fault(&mut self, rule: Rule, at: u64) -> Way {
        self.faults.push((rule, at));
        Way::Stop
    }

    /// "Records before the turn end at N at most, after it at floor(h) at most."
    fn end(&self) -> u64 {
        if self.turned {
            floor(self.head)
        } else {
            self.n
        }
    }

    /// Whether the chain is over at `p`: "T is the first place with eight FF bytes or,
    /// after the turn, floor(h)"; "with floor(h) = 0 a chain at N ends with T = N".
    fn over(&self, img: &[u8], p: u64) -> bool {
        p == self.end() || blank(img, p, p + 8)
    }

    /// "at N, the chain goes on at 0, if floor(h) > 0"
    fn turns(&self, p: u64) -> bool {
        !self.turned && p == self.n && floor(self.head) > 0
    }

    /// What stands at `p`, where the chain isn't over.
    fn thing(&mut self, img: &[u8], p: u64) -> Way {
        if let Some(at) = self.open {
            // it isn't "last thing in the chain only"
            return self.fault(Rule::Unfinished, at);
        }
        let may_turn = !self.turned && floor(self.head) > 0;
        if torn_wrap_shape(img, p) {
            if !may_turn || !blank(img, p + 3, self.n) {
                return self.fault(Rule::Unfinished, p);
            }
            (self.torn_wrap, self.turned, self.tail) = (true, true, Some(0));
            return Way::Stop;
        }
        if magic(img, p) == WRAP {
            if status(img, p) != WRAP_STATUS || byte(img, p + 3) != 0xFF {
                return self.fault(Rule::Header, p);
            }
            if !may_turn {
                return self.fault(Rule::Mark, p);
            }
            self.turned = true;
            return Way::On(0);
        }
        self.record(img, p)
    }

    /// A record, or what is none.
    fn record(&mut self, img: &[u8], p: u64) -> Way {
        let (m, st, torn) = (magic(img, p), status(img, p), torn_shape(img, p));
        let known = torn || (matches!(m, RECORD | START | CLEAN) && st != ERASED);
        let good_header = known && byte(img, p + 3) == 0xFF;
        let unfinished = torn || (known && st == RESERVED);
        if !good_header {
            self.fault(Rule::Header, p);
        }
        if !good_header && !unfinished {
            return Way::Stop;
        }
        let length = if torn { Some(0) } else { name_end(img, p).map(|n| n.len) };
        let Some(length) = length else {
            // of a reserved one it is the paragraph on the last thing that says so
            return self.fault(if unfinished { Rule::Unfinished } else { Rule::Name }, p);
        };
        let size = if torn { 16 } else { size_of(length, data_len(img, p)) };
        let fits = p + size <= self.end();
        if !fits {
            self.fault(Rule::End, p);
        }
        if !good_header {
            // an unfinished record whose reserved byte is not FF: "unfinished" if it isn't last
            let next = if self.turns(p + size) { 0 } else { p + size };
            if fits && !(next == self.end() || blank(img, next, next + 8)) {
                self.fault(Rule::Unfinished, p);
            }
            return Way::Stop;
        }
        let name = if torn { &[][..] } else { &img[(p + 8) as usize..(p + 8 + length) as usize] };
        self.records.push(Seen { at: p, magic: m, status: st, torn, name: name.to_vec() });
        if unfinished {
            self.open = Some(p);
        }
        if fits {
            Way::On(p + size)
        } else {
            Way::Stop
        }
    }

    /// The rules on names: "a live name that breaks the name rule, two FC or two F8 of
    /// one name". Live is judged on the records read.
    fn names(&mut self) {
        let mut found = Vec::new();
        for (i, r) in self.records.iter().enumerate() {
            let before = &self.records[..i];
            let repeated = before.iter().any(|x| x.twin(r, COMMITTED) || x.twin(r, MIGRATING));
            if repeated || (self.live(r) && !good_name(&r.name)) {
                found.push((Rule::Name, r.at));
            }
        }
        self.faults.extend(found);
    }

    fn superseded(&self, r: &Seen) -> bool {
        r.file(MIGRATING) && self.records.iter().any(|x| x.file(COMMITTED) && x.name == r.name)
    }

    fn live(&self, r: &Seen) -> bool {
        (r.file(COMMITTED) || r.file(MIGRATING)) && !self.superseded(r)
    }

    /// "a second record START in another sector, CLEAN or START further on, or second
    /// CLEAN or START while the first record is live"
    fn marks(&mut self) {
        let mut found = Vec::new();
        for (i, r) in self.records.iter().enumerate().skip(1).filter(|(_, r)| r.marked()) {
            let elsewhere = r.magic == START && floor(r.at) != floor(self.head);
            if i > 1 || elsewhere || self.live(&self.records[0]) {
                found.push((Rule::Mark, r.at));
            }
        }
        self.faults.extend(found);
    }

    /// The first fault: by address from h up to N, then from 0; at one address by rule.
    fn first(&self) -> Option<(Rule, u64)> {
        let rank = |at: u64| if at >= self.head { at - self.head } else { at + self.n - self.head };
        self.faults.iter().copied().min_by_key(|&(rule, at)| (rank(at), rule))
    }

    /// "Free run .. must be FF, but if the head is CLEAN, only T's own sector (from T)
    /// must": its first byte that isn't.
    fn dirt(&self, img: &[u8]) -> Option<u64> {
        let tail = self.tail.expect("the chain has no fault, so it ends");
        let stretches = if magic(img, self.head) == CLEAN {
            vec![(tail, (floor(tail) + SECTOR).min(self.end()))]
        } else if self.turned {
            vec![(tail, floor(self.head))]
        } else {
            vec![(tail, self.n), (0, floor(self.head))]
        };
        stretches.into_iter().flat_map(|(from, to)| from..to).find(|&a| byte(img, a) != 0xFF)
    }

    /// "01's number of the repair that comes first"
    fn repair(&self, img: &[u8]) -> Verdict {
        if magic(img, self.head) == CLEAN {
            Verdict::Recovery(1)
        } else if self.records.get(1).is_some_and(Seen::marked) {
            Verdict::Recovery(2)
        } else if self.torn_wrap || self.open.is_some() {
            Verdict::Recovery(3)
        } else if self.records.iter().any(|r| self.superseded(r)) {
            Verdict::Recovery(4)
        } else {
            Verdict::Settled
        }
    }
}

/// The chain from a head on, as far as it can be read.
fn follow(img: &[u8], head: u64) -> Followed {
    let n = img.len() as u64;
    let (records, faults) = (Vec::new(), Vec::new());
    let mut c = Followed { n, head, records, faults, turned: false, tail: None, open: None, torn_wrap: false };
    let mut p = head;
    loop {
        if c.turns(p) {
            (c.turned, p) = (true, 0);
        }
        if c.over(img, p) {
            c.tail = Some(p);
            return c;
        }
        match c.thing(img, p) {
            Way::On(next) => p = next,
            Way::Stop => return c,
        }
    }
}

/// The verdict, or 22: "a bad N is 22".
pub fn check(img: &[u8]) -> Result<Verdict, u32> {
    if !good_length(img.len() as u64) {
        return Err(22);
    }
    // "head (address 0)"
    let Ok(head) = find_head(img) else { return Ok(Verdict::Broken(Rule::Head, 0)) };
    let mut c = follow(img, head);
    c.names();
    c.marks();
    if let Some((rule, at)) = c.first() {
        return Ok(Verdict::Broken(rule, at));
    }
    Ok(match c.dirt(img) {
        Some(at) => Verdict::Broken(Rule::Free, at),
        None => c.repair(img),
    })
}
