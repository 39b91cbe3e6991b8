//! An edition: a wrong definition, with the fact that is false under it and the place where the checker must say so.
//!   file: the definition's file         fit: a file of the proof
//!   old:  the text that stands there    new: the text in its place
//!   false: the fact, in words
//!   at:   the file and the lemma in which it is refused
//! Files count from crates/. One or more pairs of old and new follow a file; each may have several lines, each with its
//! word. A `fit` changes the proof's text where it only repeats the definition, so that what is refused is a fact and
//! not that text. Of several places each must refuse, and one of them first. Lines that begin with # are comments.
use std::fs;
use std::path::Path;

/// A text of a file and the text in its place.
#[derive(Debug, PartialEq, Default, Clone)]
pub struct Change {
    pub file: String,
    pub old: String,
    pub new: String,
    /// of the proof's text, not of a definition
    pub is_fit: bool,
}

#[derive(Debug, Default)]
pub struct Edition {
    /// the crate that must refuse it
    pub by: String,
    pub label: String,
    pub changes: Vec<Change>,
    /// the fact that is false
    pub fact: String,
    pub places: Vec<Place>,
}

/// A lemma, or of the table of cases one row: some text of it.
#[derive(Debug, PartialEq, Clone)]
pub struct Place {
    pub file: String,
    pub lemma: String,
    pub row: Option<String>,
}

impl std::fmt::Display for Place {
    fn fmt(&self, f: &mut std::fmt::Formatter) -> std::fmt::Result {
        write!(f, "{}, `{}`", self.file, self.lemma)?;
        self.row.iter().try_for_each(|row| write!(f, ", row `{row}`"))
    }
}

/// The lines of one text, put together.
fn extend(text: &mut String, line: &str, between: char) {
    if !text.is_empty() {
        text.push(between);
    }
    text.push_str(line);
}

impl Edition {
    pub fn parse(by: &str, label: &str, text: &str) -> Result<Edition, String> {
        let mut e = Edition { by: by.into(), label: label.into(), ..Edition::default() };
        let (mut file, mut is_fit) = (String::new(), false);
        // the word of the line before: a new `old` begins a pair
        let mut before = "";
        for line in text.lines().filter(|l| !l.starts_with('#') && !l.is_empty()) {
            let (word, rest) = line.split_once(':').ok_or(format!("no word stands before `{line}`"))?;
            let rest = rest.strip_prefix(' ').unwrap_or(rest);
            if word == "old" && before != "old" {
                e.changes.push(Change { file: file.clone(), is_fit, ..Change::default() });
            }
            let last = e.changes.last_mut().ok_or("`new` without `old`");
            match word {
                "file" | "fit" => (file, is_fit) = (rest.into(), word == "fit"),
                "old" => extend(&mut last?.old, rest, '\n'),
                "new" => extend(&mut last?.new, rest, '\n'),
                "false" => extend(&mut e.fact, rest, ' '),
                "at" => e.places.push(Place::parse(rest)?),
                _ => return Err(format!("`{word}` is no word of an edition")),
            }
            before = word;
        }
        e.whole()
    }

    fn whole(self) -> Result<Edition, String> {
        let bad = self.changes.iter().find(|c| c.file.is_empty() || c.old.is_empty());
        match () {
            _ if self.changes.is_empty() => Err("it changes nothing".into()),
            _ if bad.is_some() => Err("an `old` has no file, or no text".into()),
            _ if self.fact.is_empty() => Err("it does not say which fact is false".into()),
            _ if self.places.is_empty() => Err("it does not say where it is refused".into()),
            _ => Ok(self),
        }
    }
}

impl Place {
    fn parse(text: &str) -> Result<Place, String> {
        let (place, row) = match text.split_once(" row ") {
            Some((place, row)) => (place, Some(row.to_string())),
            None => (text, None),
        };
        let (file, lemma) = place.split_once(' ').ok_or(format!("`{place}` is no file with a lemma"))?;
        Ok(Place { file: file.into(), lemma: lemma.into(), row })
    }
}

/// What stands in the folder, by name.
pub fn names_in(folder: &Path) -> Vec<String> {
    let Ok(entries) = fs::read_dir(folder) else { return Vec::new() };
    let mut names: Vec<String> = entries.map(|e| e.unwrap().file_name().into_string().unwrap()).collect();
    names.sort();
    names
}

/// The editions of all crates below this folder, crate by crate.
pub fn all(crates: &Path) -> Result<Vec<Edition>, String> {
    let mut editions = Vec::new();
    for by in names_in(crates) {
        let folder = crates.join(&by).join("wrong-definitions");
        for file in names_in(&folder) {
            let label = file.trim_end_matches(".edit").replace('_', " ");
            let text = scratch::read(&folder.join(&file))?;
            editions.push(Edition::parse(&by, &label, &text).map_err(|e| format!("{by}, {label}: {e}"))?);
        }
    }
    Ok(editions)
}

#[cfg(test)]
mod tests {
    use super::*;

    const TEXT: &str = "# why\nfile: spec/specs/A.antt\nold: a\nold:   b\nnew: c\nold: d\nnew:\nfit: h/specs/B.antt\n\
                        old: e\nnew: f\nfalse: a fact\nfalse: in words\nat: h/specs/B.antt lemma\nat: c/P.antt all row x y\n";

    #[test]
    fn an_edition() {
        let e = Edition::parse("h", "wrong", TEXT).unwrap();
        let change = |file: &str, old: &str, new: &str, is_fit| Change {
            file: file.into(),
            old: old.into(),
            new: new.into(),
            is_fit,
        };
        let (a, b) = ("spec/specs/A.antt", "h/specs/B.antt");
        let wanted = [change(a, "a\n  b", "c", false), change(a, "d", "", false), change(b, "e", "f", true)];
        assert_eq!(e.changes, wanted);
        assert_eq!(e.fact, "a fact in words");
        assert_eq!(e.places[0], Place { file: "h/specs/B.antt".into(), lemma: "lemma".into(), row: None });
        assert_eq!(e.places[1].row.as_deref(), Some("x y"));
    }

    /// What a reviewer needs must stand there.
    #[test]
    fn no_editions() {
        for left_out in ["false:", "at:", "old:", "file:"] {
            let text: String = TEXT.lines().filter(|l| !l.starts_with(left_out)).map(|l| format!("{l}\n")).collect();
            assert!(Edition::parse("h", "wrong", &text).is_err(), "without {left_out}");
        }
        assert!(Edition::parse("h", "wrong", &format!("{TEXT}because: x\n")).is_err());
    }
}
