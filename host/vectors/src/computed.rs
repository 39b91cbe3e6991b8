//! The scratch folders in which antt computes the vectors.
use crate::emit::{self, Vector};
use crate::helper;
use scratch::{copy, make, read, replaced, types, write, Folder};
use std::path::Path;
use std::process::Command;

/// Vectors in a file; a file with an error is otherwise checked whole.
const PER_FILE: usize = 20;
/// Vectors in a run of rt: enough that reading the definitions costs little beside them.
const PER_RUN: usize = 140;

/// A textual edit of one file of the definitions; the old text stands there once.
#[derive(Clone, Copy)]
pub struct Edit {
    pub file: &'static str,
    pub old: &'static str,
    pub new: &'static str,
}

impl Edit {
    fn apply(&self, specs: &Path) -> Result<(), String> {
        let path = specs.join(self.file);
        let text = replaced(&read(&path)?, self.old, self.new).map_err(|e| format!("{}: {e}", self.file))?;
        write(&path, &text)
    }
}

/// The numbers of the vectors that differ, over definitions with these edits.
pub fn check_edited(
    spec: &Path,
    edits: &[Edit],
    vectors: &[(usize, &Vector)],
    job: usize,
) -> Result<Vec<usize>, String> {
    let folder = Folder::new(&format!("vectors-{job}"))?;
    let specs = folder.0.join("crates/spec/specs");
    copy(&spec.join("specs"), &specs)?;
    make(&folder.0.join("crates/spec/src"))?;
    write(&folder.0.join("crates/spec/src/lib.rt"), &types(&read(&spec.join("src/lib.rt"))?))?;
    write(&folder.0.join("crates.txt"), "spec:\n")?;
    for edit in edits {
        edit.apply(&specs)?;
    }
    write(&specs.join("Run.antt"), &helper::text(&specs)?)?;
    let mut lib = read(&specs.join("Lib.antt"))? + "pub mod Run\n";
    for (i, chunk) in vectors.chunks(PER_FILE).enumerate() {
        write(&specs.join(format!("V{i}.antt")), &emit::file(chunk))?;
        lib += &format!("pub mod V{i}\n");
    }
    write(&specs.join("Lib.antt"), &lib)?;
    let rt = std::env::var("RT").unwrap_or("rt".into());
    let run = Command::new(&rt).arg("check").current_dir(folder.0.join("crates/spec")).output();
    let run = run.map_err(|e| format!("{rt}: {e}"))?;
    let out = String::from_utf8_lossy(&run.stdout).into_owned() + &String::from_utf8_lossy(&run.stderr);
    differing(&out, run.status.success())
}

/// What rt says of the vectors. An error elsewhere is no verdict on any of them.
fn differing(out: &str, success: bool) -> Result<Vec<usize>, String> {
    let mut numbers = Vec::new();
    for line in out.lines().filter(|l| l.contains(": error: ")) {
        let vector = line.split(": error: `v").nth(1).and_then(|rest| rest.split('`').next()?.parse().ok());
        match vector {
            Some(i) => numbers.push(i),
            None => return Err(format!("not a vector: {line}")),
        }
    }
    // rt may tell one twice, as soon as it is found and at the end
    numbers.sort();
    numbers.dedup();
    let proved = out.lines().any(|l| l.starts_with("logic=proved"));
    if numbers.is_empty() != (success && proved) {
        return Err(format!("rt gives no verdict:\n{out}"));
    }
    Ok(numbers)
}

/// Share the work out over threads; the results in the order of the tasks.
pub fn shared<T: Sync, R: Send>(tasks: &[T], jobs: usize, work: impl Fn(usize, &T) -> R + Sync) -> Vec<R> {
    let next = std::sync::atomic::AtomicUsize::new(0);
    let results = std::sync::Mutex::new(Vec::new());
    std::thread::scope(|scope| {
        for _ in 0..jobs {
            scope.spawn(|| loop {
                let i = next.fetch_add(1, std::sync::atomic::Ordering::Relaxed);
                let Some(task) = tasks.get(i) else { return };
                let result = work(i, task);
                results.lock().expect("no worker panicked").push((i, result));
            });
        }
    });
    let mut results = results.into_inner().expect("no worker panicked");
    results.sort_by_key(|r| r.0);
    results.into_iter().map(|r| r.1).collect()
}

/// The numbers of the vectors that differ over the definitions as they are.
pub fn check(spec: &Path, vectors: &[(usize, &Vector)], jobs: usize) -> Result<Vec<usize>, String> {
    // dealt out in turn, so that all runs take about as long
    let runs = vectors.len().div_ceil(PER_RUN).max(1);
    let deal = |j| vectors.iter().copied().skip(j).step_by(runs).collect();
    let shares: Vec<Vec<(usize, &Vector)>> = (0..runs).map(deal).collect();
    let mut differ = Vec::new();
    for found in shared(&shares, jobs, |job, share| check_edited(spec, &[], share, job)) {
        differ.extend(found?);
    }
    differ.sort();
    Ok(differ)
}

#[cfg(test)]
mod tests {
    use super::*;

    #[test]
    fn verdicts() {
        let proved = "crate spec: modules loaded=0 checked=9\nlogic=proved functions=1\n";
        assert_eq!(differing(proved, true), Ok(vec![]));
        let two = "V0.antt:21:6: error: `v3`: the types differ\nV1.antt:4:6: error: `v27`: the types differ\nlogic=not-proved\n";
        assert_eq!(differing(two, false), Ok(vec![3, 27]));
        assert_eq!(differing(&format!("so far: {two}{two}"), false), Ok(vec![3, 27]));
    }

    /// Silence, an error outside the vectors and a failure without errors are no verdicts.
    #[test]
    fn no_verdicts() {
        assert!(differing("", true).is_err());
        assert!(differing("logic=not-proved\n", false).is_err());
        assert!(differing("Run.antt:82:13: error: `check`: a tuple\nlogic=not-proved\n", false).is_err());
    }
}
