//! Wrong definitions are refused. Each edition of crates/NAME/wrong-definitions (edit.rs has their form) is applied to a
//! scratch copy of the crates, and the crate NAME must refuse it: the checker's first error lies where the edition says,
//! and is one that says that a fact fails (verdict.rs).
//!   refused [--jobs N] [WHAT ..]   those of a crate, or with these words in their name; all without a word
//!   refused --table                the table of docs/WRONG-DEFINITIONS.md; tries nothing
//! Before them, the copy is checked with the right definitions. Fails if an edition is not refused as it says. rt is taken
//! from RT, or from PATH.
mod edit;
mod rows;
mod verdict;

use edit::Edition;
use scratch::{copy, read, replaced, types, write, Folder};
use std::fs;
use std::path::{Path, PathBuf};
use std::process::{Command, ExitCode};
use std::sync::atomic::{AtomicUsize, Ordering};
use std::time::Instant;
use verdict::{verdict, Verdict};

struct Options {
    jobs: usize,
    table: bool,
    what: Vec<String>,
}

fn options() -> Option<Options> {
    let mut words = std::env::args().skip(1);
    let cores = std::thread::available_parallelism().map_or(1, |n| n.get());
    let mut options = Options { jobs: cores.min(2), table: false, what: Vec::new() };
    while let Some(word) = words.next() {
        match word.as_str() {
            "--jobs" => options.jobs = words.next()?.parse().ok().filter(|&n| n > 0)?,
            "--table" => options.table = true,
            _ => options.what.push(word),
        }
    }
    Some(options)
}

fn main() -> ExitCode {
    let Some(options) = options() else {
        eprintln!("usage: refused [--table] [--jobs N] [WHAT ..]");
        return ExitCode::from(2);
    };
    match run(&options) {
        Ok(true) => ExitCode::SUCCESS,
        Ok(false) => ExitCode::FAILURE,
        Err(e) => {
            eprintln!("{e}");
            ExitCode::from(2)
        }
    }
}

fn run(options: &Options) -> Result<bool, String> {
    let root = repository();
    let is_wanted =
        |e: &Edition| options.what.is_empty() || options.what.iter().any(|w| e.by == *w || e.label.contains(w));
    let editions: Vec<Edition> = edit::all(&root.join("crates"))?.into_iter().filter(is_wanted).collect();
    if options.table {
        print!("{}", table(&editions));
        return Ok(true);
    }
    let start = Instant::now();
    let refused = all(&root, &editions, options.jobs)?;
    println!("{} wrong definitions, {refused} refused as they say, in {} s", editions.len(), start.elapsed().as_secs());
    Ok(refused == editions.len() && refused > 0)
}

/// The folder above that holds crates.txt.
fn repository() -> PathBuf {
    let mut at = std::env::current_dir().expect("a working folder");
    while !at.join("crates.txt").is_file() {
        at = at.parent().expect("run inside the repository").to_path_buf();
    }
    at
}

/// As docs/WRONG-DEFINITIONS.md has it.
fn table(editions: &[Edition]) -> String {
    let mut text =
        "| refused by | wrong definition | the fact that is then false | at |\n|---|---|---|---|\n".to_string();
    for e in editions {
        let places: Vec<String> = e.places.iter().map(|p| p.to_string()).collect();
        let fit = if e.changes.iter().any(|c| c.is_fit) { " (with a fit)" } else { "" };
        text += &format!("| {} | {}{fit} | {} | {} |\n", e.by, e.label, e.fact, places.join("; "));
    }
    text
}

/// Tries the editions, so many at a time, each job on a copy of its own. Gives how many are refused as they say.
fn all(root: &Path, editions: &[Edition], jobs: usize) -> Result<usize, String> {
    let (next, refused) = (AtomicUsize::new(0), AtomicUsize::new(0));
    let work = |job: usize| -> Result<(), String> {
        let copied = Copied::new(root, job)?;
        if job == 0 {
            copied.accepts_the_right_ones(editions)?;
        }
        while let Some(edition) = editions.get(next.fetch_add(1, Ordering::Relaxed)) {
            let is_refused = copied.tell(edition);
            refused.fetch_add(is_refused as usize, Ordering::Relaxed);
        }
        Ok(())
    };
    let work = &work;
    std::thread::scope(|scope| {
        let workers: Vec<_> = (0..jobs).map(|job| scope.spawn(move || work(job))).collect();
        workers.into_iter().try_for_each(|w| w.join().expect("no worker panicked"))
    })?;
    Ok(refused.into_inner())
}

/// What of a crate is checked.
const PARTS: [&str; 3] = ["src", "specs", "proofs"];

/// A copy of crates.txt and crates/, in which one edition after another is tried.
struct Copied {
    folder: Folder,
}

impl Copied {
    fn new(root: &Path, job: usize) -> Result<Copied, String> {
        let folder = Folder::new(&format!("refused-{job}"))?;
        let to = &folder.0;
        for name in edit::names_in(&root.join("crates")) {
            let (from, to) = (root.join("crates").join(&name), to.join("crates").join(&name));
            let parts = PARTS.iter().filter(|part| from.join(part).is_dir());
            parts.map(|part| copy(&from.join(part), &to.join(part))).collect::<Result<(), String>>()?;
        }
        write(&to.join("crates.txt"), &read(&root.join("crates.txt"))?)?;
        let spec = to.join("crates/spec");
        write(&spec.join("src/lib.rt"), &types(&read(&spec.join("src/lib.rt"))?))?;
        let _ = fs::remove_dir_all(spec.join("proofs"));
        Ok(Copied { folder })
    }

    /// Else a refusal would say nothing.
    fn accepts_the_right_ones(&self, editions: &[Edition]) -> Result<(), String> {
        let mut crates: Vec<&str> = editions.iter().map(|e| e.by.as_str()).collect();
        crates.dedup();
        for name in crates {
            let (said, success) = self.check(name)?;
            if !success {
                return Err(format!("{name} is not proved over the right definitions:\n{said}"));
            }
        }
        Ok(())
    }

    /// Tries it and prints its line; whether it is refused as it says.
    fn tell(&self, edition: &Edition) -> bool {
        let start = Instant::now();
        let verdict = self.try_one(edition);
        let text = match &verdict {
            Ok(Verdict::Refused) => format!("refused at {}", edition.places[0]),
            Ok(Verdict::Survived) => "NOT REFUSED".into(),
            Ok(Verdict::Otherwise(how)) => format!("NOT AS IT SAYS: {how}"),
            Err(why) => format!("BAD EDITION: {why}"),
        };
        println!("{:8} {:50} {:3} s  {text}", edition.by, edition.label, start.elapsed().as_secs());
        matches!(verdict, Ok(Verdict::Refused))
    }

    fn try_one(&self, edition: &Edition) -> Result<Verdict, String> {
        let crates = self.folder.0.join("crates");
        // of a file with several changes each text is the right one: all are read before the first change
        let right = edition.changes.iter().map(|c| read(&crates.join(&c.file))).collect::<Result<Vec<_>, _>>()?;
        let tried = self.apply(edition).and_then(|()| self.check(&edition.by));
        for (change, text) in edition.changes.iter().zip(&right) {
            write(&crates.join(&change.file), text)?;
        }
        let (said, success) = tried?;
        Ok(verdict(edition, &said, success, |place, line| rows::is_row(&crates, place, line)))
    }

    fn apply(&self, edition: &Edition) -> Result<(), String> {
        for change in &edition.changes {
            let path = self.folder.0.join("crates").join(&change.file);
            let text =
                replaced(&read(&path)?, &change.old, &change.new).map_err(|e| format!("{}: {e}", change.file))?;
            write(&path, &text)?;
        }
        Ok(())
    }

    /// What rt says of a crate, and whether it is proved.
    fn check(&self, name: &str) -> Result<(String, bool), String> {
        let rt = std::env::var("RT").unwrap_or("rt".into());
        let folder = self.folder.0.join("crates").join(name);
        let run = Command::new(&rt).arg("check").current_dir(folder).output();
        let out = run.map_err(|e| format!("{rt}: {e}"))?;
        Ok((String::from_utf8_lossy(&[out.stdout, out.stderr].concat()).into_owned(), out.status.success()))
    }
}

#[cfg(test)]
mod tests {
    use super::*;

    /// The paper has the table of all editions, as they are.
    #[test]
    fn the_paper_has_the_table() {
        let root = Path::new(env!("CARGO_MANIFEST_DIR")).join("../..");
        let paper = read(&root.join("docs/WRONG-DEFINITIONS.md")).unwrap();
        let table = table(&edit::all(&root.join("crates")).unwrap());
        assert!(
            paper.contains(&table),
            "docs/WRONG-DEFINITIONS.md: put what `refused --table` prints in the place of its table"
        );
    }
}
