//! Vectors: runs of the model as equations that antt computes over the definitions.
//!   vectors all [SPEC] [--jobs N] [--only WHAT]       every vector; which differ
//!   vectors faults [SPEC] [--jobs N] [--only FAULT]   wrong definitions; each must be noticed
//! SPEC is the folder of the definitions (../crates/spec). WHAT is a tag, a source, a
//! call, or a call with its answer ("put 28"); FAULT is a fault's name, or its first words. Everything is made in scratch folders
//! and repeats from run to run. rt is taken from RT, or from PATH.
mod collect;
mod computed;
mod emit;
mod faults;
mod held;
mod helper;
mod histories;
mod inside_faults;
mod length_faults;
mod lengths;
mod name_faults;
mod names;
mod orders;
mod plan_faults;
mod plans;
mod required;
mod room_faults;
mod rooms;
mod space_faults;
mod spaces;
mod trace_faults;
mod traces;
mod verdict_faults;
mod verdicts;

use collect::Collection;
use emit::Vector;
use std::path::PathBuf;
use std::process::ExitCode;

struct Options {
    command: String,
    spec: PathBuf,
    jobs: usize,
    only: Option<String>,
}

fn options() -> Option<Options> {
    let mut words = std::env::args().skip(1);
    let cores = std::thread::available_parallelism().map_or(1, |n| n.get());
    let mut options = Options { command: words.next()?, spec: "../crates/spec".into(), jobs: cores.min(2), only: None };
    while let Some(word) = words.next() {
        if word == "--jobs" {
            options.jobs = words.next()?.parse().ok().filter(|&n| n > 0)?;
        } else if word == "--only" {
            options.only = Some(words.next()?);
        } else {
            options.spec = word.into();
        }
    }
    Some(options)
}

/// Every vector over the definitions as they are.
fn all(options: &Options, vectors: &Collection) -> Result<bool, String> {
    print!("{}", vectors.table());
    let missing = vectors.missing();
    for what in &missing {
        println!("MISSING: {what}");
    }
    let chosen: Vec<(usize, &Vector)> = match &options.only {
        None => vectors.vectors.iter().enumerate().collect(),
        Some(what) => vectors.vectors.iter().enumerate().filter(|(_, v)| v.is_of(what)).collect(),
    };
    let differ = computed::check(&options.spec, &chosen, options.jobs)?;
    for &i in &differ {
        println!("DIFFERS: {}", vectors.vectors[i].describe());
    }
    println!("{} vectors, {} differ", chosen.len(), differ.len());
    Ok(differ.is_empty() && missing.is_empty())
}

fn main() -> ExitCode {
    let Some(options) = options() else {
        eprintln!("usage: vectors all|faults [SPEC] [--jobs N] [--only WHAT]");
        return ExitCode::from(2);
    };
    let vectors = collect::collect();
    let done = match options.command.as_str() {
        "all" => all(&options, &vectors),
        "faults" => faults::run(&options.spec, &vectors.vectors, options.jobs, options.only.as_deref()),
        other => Err(format!("no command {other}")),
    };
    match done {
        Ok(true) => ExitCode::SUCCESS,
        Ok(false) => ExitCode::FAILURE,
        Err(e) => {
            eprintln!("{e}");
            ExitCode::from(2)
        }
    }
}
