//! What the checker says of an edited crate: whether it refuses it, at which place, and whether a fact fails there.
use crate::edit::{Edition, Place};

/// One of the checker's errors.
#[derive(Debug, Clone, PartialEq)]
pub struct Fault {
    /// counted from crates/
    pub file: String,
    pub line: usize,
    pub lemma: String,
    pub message: String,
}

#[derive(Debug, PartialEq)]
pub enum Verdict {
    /// at all its places, and at one of them first
    Refused,
    /// the crate is still proved
    Survived,
    /// refused, but not as the edition says
    Otherwise(String),
}

/// How a message begins that says that a fact fails: two types differ, an equation is left over, or numbers are found
/// for which a goal fails. Any other says that the proof's text does not fit: a name is missing, a place to rewrite is
/// not there, a term is not determined.
const FACT_FAILS: [&str; 5] = [
    "expected type ",
    "as printed, the two types ",
    "computed as far as they go, the two types ",
    "give a proof of that as the last argument, ",
    "`omega`: the goal does not follow from what it read. All of that holds, and the goal fails, at ",
];

/// What follows from an error before it: N declarations that depend on `LEMMA`, which was rejected, were not checked.
const FOLLOWS: [&str; 2] = [" declaration that depends on `", " declarations that depend on `"];

impl Fault {
    /// ./PATH:LINE:COLUMN: error: `LEMMA`: MESSAGE, where the path counts from the folder of the crate that is checked
    fn parse(checked: &str, line: &str) -> Option<Fault> {
        let (at, said) = line.split_once(": error: ")?;
        let mut parts = at.rsplitn(3, ':');
        let _column = parts.next()?;
        let line = parts.next()?.parse().ok()?;
        let file = format!("{checked}/{}", parts.next()?.trim_start_matches("./"));
        let (lemma, message) = said.strip_prefix('`').and_then(|s| s.split_once("`: ")).unwrap_or(("", said));
        Some(Fault { file, line, lemma: lemma.into(), message: message.into() })
    }

    /// It has no lemma of its own.
    fn follows(&self) -> bool {
        self.lemma.is_empty() && FOLLOWS.iter().any(|words| self.message.contains(words))
    }

    fn is_of_a_fact(&self) -> bool {
        FACT_FAILS.iter().any(|start| self.message.starts_with(start))
    }

    fn tell(&self) -> String {
        let message: String = self.message.chars().take(100).collect();
        format!("{}, line {}, `{}`: {message}", self.file, self.line, self.lemma)
    }
}

/// Where the errors lie: in the crate that is asked, or in a library below it, without which rt goes no further.
fn checked<'a>(by: &'a str, said: &'a str) -> &'a str {
    let below = |line: &'a str| line.strip_prefix("rt: the library ")?.split_once(" did not build").map(|l| l.0);
    said.lines().find_map(below).unwrap_or(by)
}

/// The errors that follow from no other, in the checker's order.
fn faults(by: &str, said: &str) -> Vec<Fault> {
    let of = checked(by, said);
    said.lines().filter_map(|line| Fault::parse(of, line)).filter(|f| !f.follows()).collect()
}

/// The verdict on what rt said and whether it succeeded. `is_row` tells whether a place's row stands at a line.
pub fn verdict(edition: &Edition, said: &str, success: bool, is_row: impl Fn(&Place, usize) -> bool) -> Verdict {
    if success {
        return Verdict::Survived;
    }
    let faults = faults(&edition.by, said);
    let lies = |f: &Fault, p: &Place| f.file == p.file && f.lemma == p.lemma && is_row(p, f.line);
    let Some(first) = faults.first() else {
        return Verdict::Otherwise("rt failed and named no error".into());
    };
    if !edition.places.iter().any(|p| lies(first, p)) {
        return Verdict::Otherwise(format!("refused elsewhere: {}", first.tell()));
    }
    for place in &edition.places {
        // the first error of a lemma decides: those behind it may come of it
        match faults.iter().find(|f| lies(f, place)) {
            None => return Verdict::Otherwise(format!("not refused at {place}")),
            Some(f) if !f.is_of_a_fact() => return Verdict::Otherwise(format!("no fact fails: {}", f.tell())),
            Some(_) => {}
        }
    }
    Verdict::Refused
}

#[cfg(test)]
mod tests {
    use super::*;

    fn edition(places: &[(&str, &str)]) -> Edition {
        let place = |&(file, lemma): &(&str, &str)| Place { file: file.into(), lemma: lemma.into(), row: None };
        Edition { by: "h".into(), places: places.iter().map(place).collect(), ..Edition::default() }
    }

    const SAID: &str = "rt: chose --jobs 2 for h\n\
        ./specs/A.antt:34:114: error: `low`: expected type `a`, but this has type `b`\n  more\n\
        ./specs/A.antt:36:1: error: 2 declarations that depend on `low`, which was rejected, were not checked: mid, top (via mid)\n\
        ./specs/B.antt:9:2: error: `high`: `rw`: no occurrence of the path's left endpoint in the goal\n\
        logic=not-proved\n";

    fn judged(places: &[(&str, &str)], said: &str, success: bool) -> Verdict {
        verdict(&edition(places), said, success, |_, _| true)
    }

    #[test]
    fn refused_where_it_says() {
        assert_eq!(judged(&[("h/specs/A.antt", "low")], SAID, false), Verdict::Refused);
    }

    #[test]
    fn not_refused() {
        assert_eq!(judged(&[("h/specs/A.antt", "low")], "logic=proved functions=0\n", true), Verdict::Survived);
    }

    /// The library below did not build: its files are meant.
    #[test]
    fn refused_below() {
        let said = format!("{SAID}rt: the library l did not build, so nothing above it was checked\n");
        assert_eq!(judged(&[("l/specs/A.antt", "low")], &said, false), Verdict::Refused);
        assert!(matches!(judged(&[("h/specs/A.antt", "low")], &said, false), Verdict::Otherwise(_)));
    }

    /// Another place, another row, what only follows, a text that does not fit, and silence.
    #[test]
    fn otherwise() {
        let is_otherwise = |v: Verdict| assert!(matches!(v, Verdict::Otherwise(_)), "{v:?}");
        is_otherwise(judged(&[("h/specs/A.antt", "mid")], SAID, false));
        is_otherwise(judged(&[("h/specs/B.antt", "low")], SAID, false));
        is_otherwise(judged(&[("h/specs/B.antt", "high")], SAID, false));
        is_otherwise(judged(&[("h/specs/A.antt", "low"), ("h/specs/B.antt", "high")], SAID, false));
        is_otherwise(judged(&[("h/specs/A.antt", "low")], "logic=not-proved\n", false));
        let unfit = SAID.replace("expected type `a`, but this has type `b`", "`x` is not in scope");
        is_otherwise(judged(&[("h/specs/A.antt", "low")], &unfit, false));
        is_otherwise(verdict(&edition(&[("h/specs/A.antt", "low")]), SAID, false, |_, _| false));
    }
}
