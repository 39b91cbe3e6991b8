//! Mounts of stores with many files over many sets of names: the table by which names are told apart takes one now and
//! then for another, and a search then follows. How often that is so, and what it costs, depends on the names.
use crate::cases::{case, Kind};
use crate::images::{settled, Fill};
use crate::table::{self, number, size, spread};
use crate::timing::{times, Effort, Spread};
use model::bits;
use testing::c_calls::Library;

const FILES: usize = 2048;
/// The image's length, how full it is, and how many sets of names.
const SHAPES: [(usize, Fill, u64); 3] =
    [(64 << 10, Fill::Empty, 101), (1 << 20, Fill::Full, 101), (16 << 20, Fill::Full, 31)];
const EACH: Effort = Effort { runs: 15, seconds: 0.002, cold: false };
/// The sets that the other rows have come first; these are others.
const FIRST: u64 = 100;

/// One set of names: seconds of the library and of the C, and the names that the library's table takes for others.
struct Set {
    library: f64,
    baseline: f64,
    alarms: usize,
}

pub struct NamesRow {
    n: usize,
    fill: Fill,
    sets: Vec<Set>,
}

pub fn measured(library: &Library, baseline: &Library) -> Vec<NamesRow> {
    let set = |n, fill, set| {
        let store = settled(n, FILES, fill, FIRST + set).expect("the files fit");
        let case = [case(Kind::Mount, &store).expect("it is settled")];
        let times = times(library, baseline, &case, EACH);
        let alarms = bits::colliding(store.names.iter().map(|name| &name[..]));
        Set { library: times.library.median, baseline: times.baseline.median, alarms }
    };
    let row = |(n, fill, sets)| {
        eprintln!("mount, {} sets of names, {}", sets, size(n));
        NamesRow { n, fill, sets: (0..sets).map(|i| set(n, fill, i)).collect() }
    };
    SHAPES.into_iter().map(row).collect()
}

const COLUMNS: [&str; 7] = [
    "image",
    "filled",
    "sets of names",
    "library / plain C",
    "all sets' times / the C's",
    "sets over 1.3",
    "sets with a false alarm in the library",
];

pub fn table(rows: &[NamesRow]) -> String {
    let line = |NamesRow { n, fill, sets }: &NamesRow| {
        let ratio = |s: &Set| s.library / s.baseline;
        let sum = |of: fn(&Set) -> f64| sets.iter().map(of).sum::<f64>();
        let count = |is: fn(&&Set) -> bool| sets.iter().filter(is).count().to_string();
        vec![
            size(*n),
            fill.word().to_string(),
            sets.len().to_string(),
            spread(Spread::of(sets.iter().map(ratio))),
            number(sum(|s| s.library) / sum(|s| s.baseline)),
            count(|s| s.library > table::AIM * s.baseline),
            count(|s| s.alarms > 0),
        ]
    };
    table::table(&COLUMNS, 2, rows.iter().map(line))
}

#[cfg(test)]
mod tests {
    use super::*;

    #[test]
    fn lines() {
        let set = |library, baseline, alarms| Set { library, baseline, alarms };
        let row =
            NamesRow { n: 1 << 20, fill: Fill::Full, sets: vec![set(3.0, 2.0, 1), set(2.0, 2.0, 0), set(1.0, 2.0, 0)] };
        let line = "| 1 MiB | full | 3 | 1.00 (0.50 to 1.50) | 1.00 | 1 | 1 |\n";
        assert!(table(&[row]).ends_with(line));
    }
}
