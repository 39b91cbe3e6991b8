//! Whole short histories with their ledgers, as vectors.
use crate::collect::{Collection, EACH};
use crate::emit::{allowance, bytes, pieces, request, Vector};
use crate::held::{told, Told};
use model::{COMMITTED, MIGRATING};
use std::fmt::Write as _;
use testing::call::{Call, Model};
use testing::ledger::{commit_place, World};
use testing::maker::Maker;
use testing::rng::Rng;
use testing::ALL;

const MOST_STEPS: u64 = 300;
const MOST_TEXT: usize = 9_000;
const AT_COMMIT: &str = "history: put cut at the commit";
const BEFORE_COMMIT: &str = "history: put cut before the commit";
const IN_COMMIT: &str = "history: put done inside its commit";
const REMOVE_INSIDE: &str = "history: remove cut inside";
const REMOVE_AT_F8: &str = "history: remove inside at F8";
/// Random histories come to these seldom.
const RARE: [&str; 5] = [AT_COMMIT, BEFORE_COMMIT, IN_COMMIT, REMOVE_INSIDE, REMOVE_AT_F8];

struct History {
    world: World,
    text: String,
    calls: u64,
    cuts: u64,
    steps: u64,
    tags: Vec<&'static str>,
}

impl History {
    fn call(&mut self, told: &Told) {
        let call = &told.made.call;
        let commit = commit_place(&self.world.img, call);
        let (reply, inside) = self.world.step(&Model, &told.made).expect("the model keeps demand 3");
        self.world.check(&Model).expect("the model keeps demand 3");
        write!(self.text, "call {} {} {} ∷ ", request(call), allowance(call), told.byte).unwrap();
        let held = told.made.held.filter(|_| inside);
        self.tags.extend(held.map(|_| "history: cut inside a byte"));
        self.tags.extend(match (call, held) {
            (Call::Put(..), Some(COMMITTED)) if commit == Some(reply.steps + 1) => Some(IN_COMMIT),
            (Call::Remove(..), Some(MIGRATING)) => Some(REMOVE_AT_F8),
            (Call::Remove(..), Some(_)) => Some(REMOVE_INSIDE),
            (Call::Mount(_), Some(_)) => Some("history: mount cut inside"),
            _ => None,
        });
        self.calls += 1;
        self.cuts += (reply.answer == 4) as u64;
        self.steps += reply.steps;
    }

    fn random(r: &mut Rng) -> History {
        let n = r.of(&[8192, 8192, 8192, 8192, 12288]);
        let mut h = History { world: World::new(n), text: String::new(), calls: 0, cuts: 0, steps: 0, tags: vec![] };
        let mut maker = Maker { weights: [44, 20, 20, 14, 2, 2, 0], ..Maker::short(r.of(&[0, 0, 20])) };
        if r.chance(60) {
            // few names, so that files are replaced
            maker.names.truncate(2);
        }
        for _ in 0..3 + r.below(6) {
            let call = maker.call(r, &h.world.img);
            if call.need(&h.world.img) > 2 * MOST_STEPS {
                continue;
            }
            let call = h.cut_at_commit(r, call);
            h.call(&told(r, &h.world.img, call));
            if r.chance(65) {
                let mount = Call::Mount(r.of(&[ALL, ALL, 0, 1, 3, 7]));
                h.call(&told(r, &h.world.img, mount));
            }
        }
        h
    }

    /// A put is now and then cut just at its commit or just before it, most often
    /// one that replaces a file: there the ledger depends on the commit's place.
    fn cut_at_commit(&mut self, r: &mut Rng, call: Call) -> Call {
        let replaces = matches!(&call, Call::Put(name, _, _) if self.world.ledger.content(name).is_some());
        match commit_place(&self.world.img, &call) {
            Some(place) if replaces && r.chance(50) => {
                let at = r.chance(50);
                self.tags.push(if at { AT_COMMIT } else { BEFORE_COMMIT });
                call.with_allowance(if at { place } else { place - 1 })
            }
            _ => call,
        }
    }

    fn vector(self) -> Vector {
        let ledger = &self.world.ledger;
        let files: String = ledger.files.iter().map(|f| format!("file {} {} ∷ ", bytes(&f.0), bytes(&f.1))).collect();
        let absent = [&b"a"[..], b"dose", b"zz"].into_iter().filter(|x| ledger.content(x).is_none());
        let others: String = absent.map(|x| format!("{} ∷ ", bytes(x))).collect();
        let n = self.world.img.len();
        let left = pieces(&self.world.img);
        let text = format!("check_history {n} ({}[]) ({files}[]) ({others}[]) {left}", self.text);
        Vector { function: "check_history", text, kind: "history", answer: 0, tags: self.tags, source: "whole history" }
    }
}

/// So many histories, with cuts, that are not too long to compute; then more until
/// enough of them have what is rare.
pub fn add(r: &mut Rng, c: &mut Collection, count: u64) {
    let lacks = |c: &Collection, tag: &str| c.count(&format!("tag {tag}")) < EACH;
    while c.count("history 0") < count || RARE.iter().any(|t| lacks(c, t)) {
        let h = History::random(r);
        let wanted = c.count("history 0") < count || h.tags.iter().any(|t| lacks(c, t));
        if h.steps > MOST_STEPS || h.calls < 3 || !wanted {
            continue;
        }
        let (calls, cuts) = (h.calls, h.cuts);
        let v = h.vector();
        if v.text.len() > MOST_TEXT {
            continue;
        }
        c.add(v);
        c.note("history: calls", calls);
        c.note("history: cut calls", cuts);
    }
}
