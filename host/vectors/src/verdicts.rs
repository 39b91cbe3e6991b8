//! Vectors of request K13: the verdict on an image.
use crate::collect::{Collection, EACH};
use crate::emit::{pieces, Vector};
use model::*;
use testing::faulty::{faulty, kind_of, VERDICTS};
use testing::rng::Rng;

/// What a vector of a verdict computes.
pub const HELPER: &str = "
unfoldable pub check_verdict : List Piece → ℕ → ℕ → ℕ → ℕ → Bool
unfolding NAMES
check_verdict image answer verdict number address =
    let v = Verdict.verdict_numbers (Verdict.check (build image)) in
    eqb v.answer answer && eqb v.verdict verdict && eqb v.number number && eqb v.address address
";

/// How many vectors of each verdict.
const OF_EACH: u64 = 18;
const MOST_TEXT: usize = 6_000;
pub const KIND: &str = "verdict";

/// Answer, verdict, number and address, as K13's C form tells them.
fn numbers(v: Result<Verdict, u32>) -> [u64; 4] {
    match v {
        Err(answer) => [answer as u64, 0, 0, 0],
        Ok(Verdict::Settled) => [0, 0, 0, 0],
        Ok(Verdict::Recovery(number)) => [0, 1, number as u64, 0],
        Ok(Verdict::Broken(rule, at)) => [0, 2, rule as u64 + 1, at],
    }
}

fn try_image(c: &mut Collection, img: &[u8]) {
    let v = check(img);
    let tag = kind_of(v);
    if c.count(&format!("tag {tag}")) >= OF_EACH {
        return;
    }
    let image = pieces(img);
    if image.len() > MOST_TEXT {
        return;
    }
    let [answer, verdict, number, address] = numbers(v);
    let text = format!("check_verdict {image} {answer} {verdict} {number} {address}");
    let answer = v.err().unwrap_or(0);
    c.add(Vector { function: "check_verdict", text, kind: KIND, answer, tags: vec![tag], source: "verdict" });
}

/// What has too few vectors.
pub fn lacking(c: &Collection) -> Vec<String> {
    VERDICTS.iter().map(|t| format!("tag {t}")).filter(|w| c.count(w) < EACH).collect()
}

pub fn add(c: &mut Collection) {
    let mut r = Rng::new(6);
    for length in [0, 7, 4096, 8193, 12287] {
        try_image(c, &vec![0xFF; length]);
    }
    for _ in 0..6000 {
        let n = r.of(&[8192, 8192, 12288]);
        try_image(c, &faulty(&mut r, n, true));
    }
}
