//! "History and ledger": the ledger, and the check of what demand 3 says.
use crate::bounds;
use crate::call::{Call, Store};
use crate::cut::{self, Made};
use crate::progress::Progress;
use crate::ALL;
use model::*;
use std::collections::BTreeSet;

/// "The ledger maps file names to contents and starts empty." Newest first.
#[derive(Clone, Default, Debug, PartialEq)]
pub struct Ledger {
    pub files: Vec<(Vec<u8>, Vec<u8>)>,
}

impl Ledger {
    pub fn content(&self, name: &[u8]) -> Option<&Vec<u8>> {
        self.files.iter().find(|f| f.0 == name).map(|f| &f.1)
    }

    /// "at 0 the name goes"
    fn without(&mut self, name: &[u8]) {
        self.files.retain(|f| f.0 != name);
    }

    /// "the name gets the content, in place of any older one"
    fn with(&mut self, name: &[u8], content: &[u8]) {
        self.without(name);
        self.files.insert(0, (name.to_vec(), content.to_vec()));
    }

    /// "It is fed each call's arguments, its answer and its steps used. For a cut
    /// put it is also told the place of the commit in that put's step list". K14: and of
    /// a cut call, what the byte of its next program step holds.
    pub fn feed(&mut self, call: &Call, reply: &Reply, commit: Option<u64>, next: Option<u8>) {
        match (call, reply.answer) {
            (Call::Put(name, data, _), 0) => self.with(name, data),
            (Call::Put(name, data, _), 4) if committed_at(commit, reply.steps, next) => self.with(name, data),
            (Call::Remove(name, _), 0) => self.without(name),
            (Call::Remove(name, _), 4) if remove_done(next) => self.without(name),
            _ => {}
        }
    }
}

/// "At 4 likewise, exactly if the steps used reach the commit's place." K14: "A put ..
/// cut inside its deciding byte counts by what that byte then holds: .. done at FC".
fn committed_at(commit: Option<u64>, steps: u64, next: Option<u8>) -> bool {
    let place = commit.expect("a cut put has a commit");
    steps >= place || (steps + 1 == place && next == Some(COMMITTED))
}

/// K14: its only step is the deciding one; a remove is done "at anything but FC and F8".
fn remove_done(next: Option<u8>) -> bool {
    !matches!(next, Some(COMMITTED | MIGRATING))
}

/// "n + d + 9 for n name and d data bytes, 1 more if the file it replaces has FC,
/// 3 more with a marker, both by the rules above on the image that this put got";
/// 10 for 9, since a name's 00 takes two steps (K14: "Counts in 01 .. follow").
/// None for another call and for a put that is refused.
pub fn commit_place(img: &[u8], call: &Call) -> Option<u64> {
    let Call::Put(name, data, _) = call else { return None };
    if !good_length(img.len() as u64) || !good_name(name) {
        return None;
    }
    let c = rules::read_settled(img).ok()?;
    let placed = put_room(img, &c, name, data.len() as u64)?;
    let fc = c.find_live(img, name).is_some_and(|r| r.status == COMMITTED);
    // a wrong model with one step for the name's 00 is to be told by what it keeps, not by this count
    let end = if faults::seeded(faults::Fault::NameEndAtOnce) { 9 } else { 10 };
    Some((name.len() + data.len() + end) as u64 + fc as u64 + 3 * placed.marker.is_some() as u64)
}

/// An image in a history, with its ledger.
#[derive(Clone)]
pub struct World {
    pub img: Vec<u8>,
    pub ledger: Ledger,
}

impl World {
    pub fn new(n: usize) -> World {
        World { img: crate::call::formatted(n), ledger: Ledger::default() }
    }

    /// One call, and the ledger fed with it. A store can't be cut inside a byte: what the
    /// byte of the next step then holds is written here, behind the call. Gives whether
    /// that changed it.
    pub fn step(&mut self, store: &impl Store, made: &Made) -> Result<(Reply, bool), String> {
        let (call, before) = (&made.call, self.img.clone());
        let commit = commit_place(&before, call);
        let plan = call.plan(&before);
        let reply = store.call(&mut self.img, call)?;
        bounds::check(&before, call, commit, &reply)?;
        if !matches!(reply.answer, 0 | 4) && (self.img != before || reply.steps != 0) {
            return Err(format!("refusal {} changed the image", reply.answer));
        }
        let steps = plan.map_or(vec![], |p| p.steps);
        let undone = cut::left(&steps, &reply);
        let done = &steps[..steps.len() - undone.len()];
        bounds::check_each(before.len(), call, done)?;
        self.listed_steps(before, done, &reply)?;
        let next = match undone.first() {
            Some(&Step::Program(a, _)) => Some(a as usize),
            _ => None,
        };
        let found = next.map(|a| self.img[a]);
        if let Some(held) = made.held {
            cut_inside(&mut self.img, undone, held);
        }
        let holds = next.map(|a| self.img[a]);
        self.ledger.feed(call, &reply, commit, holds);
        Ok((reply, holds != found))
    }

    /// `step`, and after a put its sweeps, on a copy.
    pub fn step_with_sweeps(
        &mut self,
        store: &impl Store,
        made: &Made,
        progress: &mut Progress,
    ) -> Result<(Reply, bool), String> {
        let (reply, inside) = self.step(store, made)?;
        progress.look(store, &made.call, &reply, &self.img)?;
        Ok((reply, inside))
    }

    /// "each program step in it .. stands in one of the step lists above": the call has
    /// done so many steps, and left the image that these make of the one it got.
    fn listed_steps(&self, mut before: Vec<u8>, done: &[Step], reply: &Reply) -> Result<(), String> {
        carry_out(&mut before, done, ALL);
        if self.img != before || reply.steps != done.len() as u64 {
            return Err(format!("{reply:?}: not what the first {} steps listed make", done.len()));
        }
        Ok(())
    }

    /// What demand 3 says of a mount after the history. Gives the mounted image.
    pub fn check(&self, store: &impl Store) -> Result<Vec<u8>, String> {
        let mut m = self.img.clone();
        let reply = store.call(&mut m, &Call::Mount(ALL))?;
        // "That mount, with an allowance of at least its need, answers 0. Its count
        // of live files is the number of names in the ledger."
        if reply.answer != 0 {
            return Err(format!("mount answers {}", reply.answer));
        }
        bounds::check(&self.img, &Call::Mount(ALL), None, &reply)?;
        let count = reply.report.files;
        if count != self.ledger.files.len() as u64 {
            return Err(format!("mount counts {count} files, the ledger {}", self.ledger.files.len()));
        }
        self.check_list(store, &mut m, count)?;
        self.check_get(store, &mut m)?;
        // a second mount has nothing to do and answers alike
        let again = store.call(&mut m.clone(), &Call::Mount(0))?;
        if again != (Reply { steps: 0, ..reply }) {
            return Err(format!("second mount {again:?} after {reply:?}"));
        }
        Ok(m)
    }

    /// "list gives each of these names once, with its content's length, at the
    /// indexes below that count"
    fn check_list(&self, store: &impl Store, m: &mut [u8], count: u64) -> Result<(), String> {
        let mut seen = BTreeSet::new();
        for i in 0..count {
            let l = store.call(m, &Call::List(i))?;
            if l.answer != 0 {
                return Err(format!("list {i} answers {}", l.answer));
            }
            let name = l.extent.of(m).to_vec();
            if self.ledger.content(&name).map(|c| c.len() as u64) != Some(l.size) {
                return Err(format!("list {i}: {name:?} of length {}", l.size));
            }
            if !seen.insert(name) {
                return Err(format!("list {i}: a name again"));
            }
        }
        match store.call(m, &Call::List(count))?.answer {
            2 => Ok(()),
            other => Err(format!("list past the end answers {other}")),
        }
    }

    /// "get gives each its content; get of any other name that passes the name
    /// check is 2"
    fn check_get(&self, store: &impl Store, m: &mut [u8]) -> Result<(), String> {
        for (name, content) in &self.ledger.files {
            let g = store.call(m, &Call::Get(name.clone()))?;
            if g.answer != 0 || g.extent.of(m) != content.as_slice() {
                return Err(format!("get {name:?} is wrong (answer {})", g.answer));
            }
        }
        for name in [&b"never"[..], b"a", b"bb", b"dos"] {
            if self.ledger.content(name).is_none() && store.call(m, &Call::Get(name.to_vec()))?.answer != 2 {
                return Err(format!("get {name:?} is not 2"));
            }
        }
        Ok(())
    }
}

/// The first violation in a history, if there is one.
pub fn replay(store: &impl Store, n: usize, calls: &[Made]) -> Option<String> {
    let mut w = World::new(n);
    calls.iter().enumerate().find_map(|(i, made)| {
        let violation = w.step_with_sweeps(store, made, &mut Progress::default()).and_then(|_| w.check(store)).err()?;
        Some(format!("call {i}: {violation}"))
    })
}

/// A shorter history with a violation.
pub fn shrink(store: &impl Store, n: usize, calls: &[Made]) -> Vec<Made> {
    let mut best = calls.to_vec();
    let mut chunk = best.len() / 2;
    while chunk >= 1 {
        let mut i = 0;
        while i + chunk <= best.len() {
            let mut shorter = best.clone();
            shorter.drain(i..i + chunk);
            if replay(store, n, &shorter).is_some() {
                best = shorter;
            } else {
                i += chunk;
            }
        }
        chunk /= 2;
    }
    best
}
