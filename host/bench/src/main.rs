//! The library's times, as ratios to the best plain C (package baseline) and to a scan of the image's bytes, and the stack
//! that its calls need. Prints tables in Markdown, or writes them into docs; `--help` says which words it takes.
mod cases;
mod colliding;
mod images;
mod names;
mod options;
mod papers;
mod plans;
mod stack;
mod table;
mod timing;

use cases::{case, Case, Kind, Shape};
use colliding::Names;
use images::Settled;
use options::{Options, What, USAGE};
use std::time::Instant;
use table::{CollidingRow, Row, StackRow};
use testing::c_calls::Library;
use timing::{now, times, Effort};

const WHOLE: Effort = Effort { runs: 21, seconds: 0.004, cold: false };
const QUICK: Effort = Effort { runs: 5, seconds: 0.0005, cold: false };
/// For calls that may take half a second.
const FEW: Effort = Effort { runs: 5, seconds: 0.0005, cold: false };

/// Sets of names, each with an image of its own, that the runs of a row go through.
const SETS: u64 = 7;

/// The sections of docs/BENCHMARKS.md that are written.
const SECTIONS: [&str; 8] = ["run", "aim", "summary", "names", "cold", "colliding", "stack", "plans"];

/// The library and what it is measured against.
struct Both {
    library: Library,
    baseline: Library,
}

/// The images that are asked for, one for each set of names; those whose files don't fit are left out.
fn shapes(o: &Options) -> Vec<(Shape, Vec<Settled>)> {
    let mut shapes = Vec::new();
    for &n in &o.sizes {
        for &fill in &o.fills {
            for &files in &o.files {
                let images: Option<Vec<Settled>> = (0..SETS).map(|set| images::settled(n, files, fill, set)).collect();
                shapes.extend(images.map(|images| (Shape { n, files, fill }, images)));
            }
        }
    }
    shapes
}

fn effort(o: &Options) -> Effort {
    if o.quick {
        QUICK
    } else {
        WHOLE
    }
}

fn measure_times(o: &Options, both: &Both, calls: &[Kind], effort: Effort) -> Vec<Row> {
    let shapes = shapes(o);
    let mut rows = Vec::new();
    for &kind in calls {
        eprintln!("{}", kind.title());
        for (shape, images) in &shapes {
            let cases: Option<Vec<Case>> = images.iter().map(|img| case(kind, img)).collect();
            let Some(cases) = cases else { continue };
            let times = times(&both.library, &both.baseline, &cases, effort);
            rows.push(Row { kind, shape: *shape, times });
        }
    }
    rows
}

/// Mounts with cold caches, as at boot.
fn measure_cold(o: &Options, both: &Both) -> Vec<Row> {
    measure_times(o, both, &[Kind::Mount], Effort { cold: true, ..effort(o) })
}

fn measure_colliding(both: &Both) -> Vec<CollidingRow> {
    let mut rows = Vec::new();
    for kind in colliding::CALLS {
        for names in Names::ALL {
            eprintln!("{}, names: {}", kind.title(), names.title());
            for files in colliding::FILES {
                let case = [colliding::case(kind, names, files)];
                rows.push(CollidingRow { kind, names, files, times: times(&both.library, &both.baseline, &case, FEW) });
            }
        }
    }
    rows
}

/// The most that a call needs on any of the images.
fn measure_stack(o: &Options, both: &Both) -> Vec<StackRow> {
    let mut gauge = stack::Gauge::new();
    let shapes = shapes(o);
    let row = |&kind: &Kind| {
        let small = shapes.iter().filter(|(shape, _)| shape.n <= 1 << 20);
        let cases: Vec<Case> = small.filter_map(|(_, images)| case(kind, &images[0])).collect();
        let mut most = |store| cases.iter().map(|case| gauge.bytes(store, case)).max().unwrap_or(0);
        StackRow { kind, library: most(&both.library), baseline: most(&both.baseline) }
    };
    o.calls.iter().map(row).collect()
}

/// The processor's name.
fn machine() -> String {
    let info = std::fs::read_to_string("/proc/cpuinfo").unwrap_or_default();
    let line = info.lines().find(|line| line.starts_with("model name"));
    let name = line.and_then(|line| line.split(':').nth(1)).map_or("an unknown processor", str::trim);
    name.to_string()
}

/// Everything, into the papers.
fn write_papers(o: &Options, both: &Both, commit: &str) {
    let (wall, cpu) = (Instant::now(), now());
    let rows = measure_times(o, both, &Kind::ALL, effort(o));
    let share = 100.0 * (now() - cpu) / wall.elapsed().as_secs_f64();
    let names = names::measured(&both.library, &both.baseline);
    let cold = measure_cold(o, both);
    let colliding = measure_colliding(both);
    let stack = measure_stack(o, both);
    let plans = plans::measured(&both.library, &shapes(o), effort(o));
    let run = format!(
        "Library of commit {commit}; {}. This program had the processor for {share:.0} in 100 of the time.\n",
        machine()
    );
    let page = format!(
        "# Rows of the benchmark\n\n{run}\
         Medians of {} runs, with the least and the most; library, plain C and scan by turns. Processor time.\n\
         The runs of a row go through {SETS} sets of names.\n\
         The caches are warm but in the last table. docs/BENCHMARKS.md says what is measured.\n{}{}",
        effort(o).runs,
        table::rows(&rows),
        table::section("mount of a settled image, the caches cold", cold.iter()),
    );
    let texts = [
        run,
        table::aim(&rows),
        table::summary(&rows),
        names::table(&names),
        table::aim(&cold),
        table::colliding(&colliding),
        table::stack(&stack),
        plans::table(&plans),
    ];
    let sections: Vec<(&str, String)> = SECTIONS.into_iter().zip(texts).collect();
    papers::write(&page, &sections);
}

fn print_tables(o: &Options, both: &Both) {
    println!("{}; medians of {} runs, with the least and the most\n", machine(), effort(o).runs);
    match o.what {
        What::Warm => {
            let rows = measure_times(o, both, &o.calls, effort(o));
            println!("{}\n{}", table::rows(&rows), table::summary(&rows));
        }
        What::Cold => println!("{}", table::rows(&measure_cold(o, both))),
        What::Colliding => println!("{}", table::colliding(&measure_colliding(both))),
        What::Stack => println!("{}", table::stack(&measure_stack(o, both))),
        What::Names => println!("{}", names::table(&names::measured(&both.library, &both.baseline))),
        What::Plans => println!("{}", plans::table(&plans::measured(&both.library, &shapes(o), effort(o)))),
    }
}

fn main() {
    if std::env::args().any(|word| word == "--help") {
        println!("{USAGE}");
        return;
    }
    let o = Options::parse(std::env::args().skip(1)).unwrap_or_else(|wrong| {
        eprintln!("{wrong}\n{USAGE}");
        std::process::exit(2);
    });
    let both = Both { library: Library::new(library::functions()), baseline: Library::new(baseline::functions()) };
    match &o.papers {
        Some(commit) => write_papers(&o, &both, commit),
        None => print_tables(&o, &both),
    }
}
