//! What docs/TRACE.md and docs/CHANGING.md cite is in the tree: files, names in them, and the words of commands.
//!
//! A file or folder counts from the repository, from crates/, or from the folder that stands in brackets in the heading
//! of its column. A name in backticks stands in the file or folder cited last before it, in the same cell of a table or
//! the same line; with none, in some file of crates/, host/ or include/. The name of a file counts as a name. Of a
//! command, the words behind -p, --bin and --test are host packages, programs and tests. Any other plain words in
//! backticks, as a tag or a fault, stand so in some file, or are a file's name. A word in bold in a table is one of those
//! that the paper's first table explains.
use std::collections::BTreeMap;
use std::fs;
use std::path::{Path, PathBuf};

const PAPERS: [&str; 2] = ["docs/TRACE.md", "docs/CHANGING.md"];
const ENDINGS: [&str; 10] = [".antt", ".rt", ".rs", ".c", ".h", ".md", ".edit", ".txt", ".sh", ".expected"];
const COMMANDS: [&str; 5] = ["rt ", "cargo ", "bash ", "cd ", "(cd "];
const FOLDERS: [&str; 5] = ["crates/", "host/", "docs/", "include/", ".ci/"];

fn root() -> PathBuf {
    Path::new(env!("CARGO_MANIFEST_DIR")).join("../..")
}

/// The text without comments: a word of a comment is no name.
fn without_comments(path: &Path, text: &str) -> String {
    let begins = if path.extension().is_some_and(|e| e == "antt") { "--" } else { "//" };
    let code = |line: &str| line.split(begins).next().unwrap_or("").to_string();
    text.lines().map(code).collect::<Vec<_>>().join("\n")
}

/// Every file below, with its text; without what cargo and rt make.
fn files(folder: &Path, found: &mut BTreeMap<PathBuf, String>) {
    for entry in fs::read_dir(folder).unwrap_or_else(|e| panic!("{}: {e}", folder.display())) {
        let path = entry.unwrap().path();
        if path.is_dir() {
            if !path.ends_with("target") && !path.ends_with("out") {
                files(&path, found);
            }
        } else if let Ok(text) = fs::read_to_string(&path) {
            let text = without_comments(&path, &text);
            found.insert(path, text);
        }
    }
}

/// The tree in which names are looked for.
struct Tree {
    files: BTreeMap<PathBuf, String>,
    crates: Vec<String>,
}

fn is_name_char(c: char) -> bool {
    c.is_alphanumeric() || "-_′".contains(c)
}

/// The text has this name as a whole word.
fn has_word(text: &str, name: &str) -> bool {
    text.match_indices(name).any(|(i, _)| {
        let ends = |c: Option<char>| c.is_none_or(|c| !is_name_char(c));
        ends(text[..i].chars().next_back()) && ends(text[i + name.len()..].chars().next())
    })
}

impl Tree {
    fn new() -> Tree {
        let mut found = BTreeMap::new();
        for folder in ["crates", "host", "include"] {
            files(&root().join(folder), &mut found);
        }
        // this test names what is nowhere else
        found.remove(&root().join("host/testing/tests/papers.rs"));
        let crates = fs::read_dir(root().join("crates")).unwrap();
        let crates = crates.map(|e| e.unwrap().file_name().into_string().unwrap() + "/").collect();
        Tree { files: found, crates }
    }

    /// The word is written as a file or folder.
    fn is_path(&self, word: &str) -> bool {
        let begins =
            FOLDERS.iter().any(|f| word.starts_with(f)) || self.crates.iter().any(|c| word.starts_with(c.as_str()));
        begins || ENDINGS.iter().any(|e| word.len() > e.len() && word.ends_with(e))
    }

    fn path(&self, word: &str, base: &str) -> Option<PathBuf> {
        ["", "crates", base].map(|b| root().join(b).join(word)).into_iter().find(|p| p.exists())
    }

    /// The name stands in this file or folder.
    fn has(&self, name: &str, place: &Path) -> bool {
        // of `Place::after` each part
        name.split("::").all(|part| {
            let mut inside = self.files.iter().filter(|(path, _)| path.starts_with(place));
            inside.any(|(path, text)| has_word(text, part) || path.file_stem().is_some_and(|s| s == part))
        })
    }
}

/// What is wrong with a cell or a line.
struct Reader<'t> {
    tree: &'t Tree,
    wrong: Vec<String>,
}

impl Reader<'_> {
    fn check(&mut self, right: bool, what: impl Fn() -> String) {
        if !right {
            self.wrong.push(what());
        }
    }

    /// Words outside of backticks; the last path in them.
    fn words(&mut self, text: &str, base: &str, last: &mut Option<PathBuf>) {
        for word in text.split_whitespace() {
            let word = word.trim_start_matches(['(', '"', '*']).trim_end_matches(|c: char| !is_name_char(c));
            if self.tree.is_path(word) && !word.contains("NAME") {
                *last = self.tree.path(word, base);
                let there = last.is_some();
                self.check(there, || format!("there is no {word}"));
            }
        }
    }

    /// In backticks: a name, or, if it has a space, a command or some words.
    fn quoted(&mut self, text: &str, last: &Option<PathBuf>) {
        if COMMANDS.iter().any(|c| text.starts_with(c)) {
            return self.command(text);
        }
        if text.contains(' ') {
            return self.phrase(text);
        }
        if self.tree.is_path(text) {
            let there = self.tree.path(text, "").is_some();
            return self.check(there, || format!("there is no `{text}`"));
        }
        let place = last.clone().unwrap_or(root());
        let there = self.tree.has(text, &place);
        let at = place.strip_prefix(root()).unwrap_or(&place).display().to_string();
        self.check(there, || format!("`{text}` is not in {}", if at.is_empty() { "the tree" } else { &at }));
    }

    /// Plain words; an expression may be made up.
    fn phrase(&mut self, text: &str) {
        let is_plain = text.chars().all(|c| c.is_alphanumeric() || " ,'=>()-".contains(c));
        let is_name = |path: &Path| path.file_stem().is_some_and(|s| s.to_string_lossy().replace('_', " ") == text);
        let there = || self.tree.files.iter().any(|(path, code)| code.contains(text) || is_name(path));
        let right = !is_plain || there();
        self.check(right, || format!("`{text}` is not in the tree"));
    }

    fn command(&mut self, text: &str) {
        let host = root().join("host");
        let words: Vec<&str> = text.split_whitespace().map(|w| w.trim_matches(|c| "()".contains(c))).collect();
        let in_packages =
            |at: &str| fs::read_dir(&host).unwrap().any(|package| package.unwrap().path().join(at).is_file());
        for pair in words.windows(2) {
            let there = match pair[0] {
                "-p" => host.join(pair[1]).join("Cargo.toml").is_file(),
                "--bin" => in_packages(&format!("src/bin/{}.rs", pair[1])),
                "--test" => in_packages(&format!("tests/{}.rs", pair[1])),
                _ => true,
            };
            self.check(there, || format!("`{text}`: there is no {}", pair[1]));
        }
        for word in words {
            let is_file = FOLDERS.iter().any(|f| word.starts_with(f)) && !word.contains("NAME") && !word.contains('*');
            self.check(!is_file || root().join(word).exists(), || format!("`{text}`: there is no {word}"));
        }
    }

    /// A cell of a table, or a line.
    fn text(&mut self, text: &str, base: &str) {
        let mut last = None;
        for (i, piece) in text.split('`').enumerate() {
            if i % 2 == 0 {
                self.words(piece, base, &mut last);
            } else {
                self.quoted(piece, &last);
            }
        }
    }
}

fn cells(row: &str) -> Vec<&str> {
    row.trim().trim_matches('|').split('|').collect()
}

/// The words in bold of a text.
fn bold(text: &str) -> Vec<&str> {
    text.split("**").skip(1).step_by(2).collect()
}

/// The folder in brackets of a heading.
fn base(heading: &str) -> &str {
    heading.split_once('(').and_then(|h| h.1.split_once(')')).map_or("", |h| h.0)
}

fn wrong_in(paper: &str, tree: &Tree) -> Vec<String> {
    let text = fs::read_to_string(root().join(paper)).unwrap_or_else(|e| panic!("{paper}: {e}"));
    let lines: Vec<&str> = text.lines().collect();
    let mut reader = Reader { tree, wrong: Vec::new() };
    let mut bases: Vec<&str> = Vec::new();
    let mut explained: Option<Vec<&str>> = None;
    let mut in_first = true;
    for (i, line) in lines.iter().enumerate() {
        if !line.starts_with('|') {
            in_first &= explained.is_none();
            if line.starts_with("    ") {
                reader.command(line);
            } else {
                reader.text(line, "");
            }
            continue;
        }
        if lines.get(i + 1).is_some_and(|next| next.starts_with("|---")) {
            bases = cells(line).into_iter().map(base).collect();
        }
        if in_first {
            explained.get_or_insert_default().extend(bold(line));
        }
        let known = explained.clone().unwrap_or_default();
        for word in bold(line) {
            reader.check(known.contains(&word), || format!("the first table does not explain {word}"));
        }
        for (cell, base) in cells(line).iter().zip(bases.iter().chain(std::iter::repeat(&""))) {
            reader.text(cell, base);
        }
    }
    reader.wrong.into_iter().map(|w| format!("{paper}: {w}")).collect()
}

#[test]
fn what_the_papers_cite_is_there() {
    let tree = Tree::new();
    let wrong: Vec<String> = PAPERS.iter().flat_map(|p| wrong_in(p, &tree)).collect();
    assert!(wrong.is_empty(), "{}", wrong.join("\n"));
}

/// The test notices what is not there.
#[test]
fn what_is_not_there_is_noticed() {
    let tree = Tree::new();
    let wrong = |text: &str, base: &str| {
        let mut reader = Reader { tree: &tree, wrong: Vec::new() };
        reader.text(text, base);
        reader.wrong.len()
    };
    let specs = "crates/spec/specs";
    assert_eq!(wrong("Mount.antt: `repair_1`, `mended`; host/promise; calls/src/put.rt `put`", specs), 0);
    assert_eq!(wrong("Mount.antt: `put_steps`", specs), 1);
    assert_eq!(wrong("Mounting.antt", specs), 1);
    assert_eq!(wrong("Mount.antt", ""), 1);
    assert_eq!(wrong("`no-such-name-at-all`", ""), 1);
    assert_eq!(wrong("`repair`", specs), 0);
    assert_eq!(wrong("Mount.antt: `repair`", specs), 1);
    assert_eq!(wrong("host/nothing", ""), 1);
    assert_eq!(wrong("`superseded F8`, `void at once`, `omega arith`", ""), 0);
    assert_eq!(wrong("`superseded F9`, `void at twice`", ""), 2);
    assert_eq!(wrong("`cargo run -p vectors -- all`; `cargo test -p testing --test papers`", ""), 0);
    assert_eq!(wrong("`cargo run -p vector -- all`; `cargo test -p testing --test paper`", ""), 2);
}
