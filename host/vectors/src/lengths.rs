//! Vectors of request K8: a file's length, and every stretch that the walk looked at.
use crate::collect::{Collection, EACH, MOST_TEXT};
use crate::emit::{bytes, pieces, Vector};
use model::{good_length, length, name_fault, Extent, Reply};
use testing::lengths::{asked, tags, Asked, TAGS};
use testing::rng::Rng;

/// What a vector of a length computes, behind the rest of the helper.
pub const HELPER: &str = "
-- answer, reason, place and length
abbrev pub length_told : ℕ → ℕ → ℕ → ℕ → Numbers
length_told answer reason place size =
    record {
      answer = answer;
      name = name_says reason place;
      report = report 0 0 0;
      moves = 0;
      extent = extent 0 0;
      size = size;
      space = space 0 0 0 0;
      steps = 0;
    }

-- all numbers of a length, and the image as it was
unfoldable pub check_length : List Piece → ℕ → List ℕ → Numbers → Bool
unfolding NAMES
check_length before h name n =
    let m = build before in
    right (Length.file_length m h name) n m

spread : List Extent → List ℕ
spread [] = []
spread (x ∷ xs) = x.offset ∷ x.length ∷ spread xs

-- the stretches that the walk looks at, as addresses and lengths in turn
unfoldable pub check_seen : List Piece → ℕ → List ℕ → Bool
unfolding NAMES spread
check_seen before h looked = Basics.same (spread (Length.seen_from (build before) h)) looked
";

/// How many vectors of each answer.
const OF_EACH: u64 = 12;
const KIND: &str = "length";
const SOURCE: &str = "length";

fn list(seen: &[Extent]) -> String {
    let numbers: String = seen.iter().map(|x| format!("{} ∷ {} ∷ ", x.offset, x.length)).collect();
    format!("({numbers}[])")
}

fn told(a: &Asked, reply: &Reply) -> String {
    let (name, size) = (reply.name, reply.size);
    format!(
        "check_length {} {} {} (length_told {} {} {} {size})",
        pieces(&a.img),
        a.head,
        bytes(&a.name),
        reply.answer,
        name.reason,
        name.place
    )
}

/// The walk is made: neither 22 nor a head that is none.
fn walks(a: &Asked) -> bool {
    let n = a.img.len() as u64;
    good_length(n) && name_fault(&a.name).reason == 0 && a.head.is_multiple_of(8) && a.head < n
}

fn try_length(c: &mut Collection, a: &Asked) {
    let (reply, seen) = length(&a.img, a.head, &a.name);
    let tags = tags(a, &reply, &seen);
    let rare = tags.iter().any(|t| c.count(&format!("tag {t}")) < 2 * EACH);
    if !rare && c.count(&format!("{KIND} {}", reply.answer)) >= OF_EACH || pieces(&a.img).len() > MOST_TEXT {
        return;
    }
    let answer = reply.answer;
    let text = told(a, &reply);
    c.add(Vector { function: "check_length", text, kind: KIND, answer, tags, source: SOURCE });
    if walks(a) {
        let text = format!("check_seen {} {} {}", pieces(&a.img), a.head, list(&seen));
        c.add(Vector { function: "check_seen", text, kind: "stretches of a length", answer, tags: Vec::new(), source: SOURCE });
    }
}

/// What has too few vectors.
pub fn lacking(c: &Collection) -> Vec<String> {
    let tags = TAGS.iter().map(|t| format!("tag {t}"));
    let answers = [0, 2, 5, 22].map(|a| format!("{KIND} {a}"));
    tags.chain(answers).filter(|w| c.count(w) < EACH).collect()
}

pub fn add(c: &mut Collection) {
    let mut r = Rng::new(6);
    for n in [0, 4096, 8193] {
        let img = vec![0xFF; n];
        try_length(c, &Asked { img, head: 0, name: b"a/".to_vec() });
    }
    for _ in 0..4000 {
        try_length(c, &asked(&mut r, &[8192, 8192, 12288]));
    }
}
