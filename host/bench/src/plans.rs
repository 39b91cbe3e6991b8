//! Planning a sweep in windows (K1) against the direct sweep.
use crate::cases::{case, Case, Kind, Shape};
use crate::images::Settled;
use crate::table::{self, micros, number, size, spread};
use crate::timing::{now, Effort, Spread, Undo};
use library::Plans;
use model::plan::Plan;
use model::planner::numbers;
use std::hint::black_box;
use testing::c_calls::Library;

/// Slots of each slice.
const SLOTS: usize = 64;
/// Sweeps that need more windows are left out: every window reads the image.
const MOST_WINDOWS: usize = 2_000;

/// The slices, and where the next window begins.
struct Windows {
    slices: [Vec<u32>; 3],
    first: u64,
}

impl Windows {
    fn new() -> Windows {
        Windows { slices: [vec![0; SLOTS], vec![0; SLOTS], vec![0; SLOTS]], first: 0 }
    }

    /// The next window; gives how many steps were handed out.
    fn next(&mut self, plans: &Plans, img: &mut [u8], case: &Case) -> usize {
        let [kinds, addresses, bytes] = &mut self.slices;
        let handing = plans.lend(img, &case.call, self.first, [kinds, addresses, bytes]);
        self.first += handing.handed;
        handing.handed as usize
    }
}

/// All windows of the sweep, which must be the model's steps.
fn agrees(plans: &Plans, case: &Case, plan: &Plan) {
    let mut img = case.img.clone();
    let mut windows = Windows::new();
    for expected in plan.steps.chunks(SLOTS) {
        assert_eq!(windows.next(plans, &mut img, case), expected.len());
        for (i, &step) in expected.iter().enumerate() {
            assert_eq!(windows.slices.each_ref().map(|s| s[i]), numbers(step));
        }
    }
    assert!(img == case.img, "planning changes nothing");
}

/// Seconds of one run, the mean of as many as it takes.
fn repeated(seconds: f64, mut run: impl FnMut() -> f64) -> f64 {
    let (mut took, mut times) = (0.0, 0.0);
    while took < seconds || times == 0.0 {
        took += run();
        times += 1.0;
    }
    took / times
}

/// Direct sweep, all windows, and the ratio of times taken next to each other.
struct Times {
    direct: Spread,
    planned: Spread,
    ratio: Spread,
}

fn times(library: &Library, plans: &Plans, case: &Case, windows: usize, effort: Effort) -> Times {
    let mut after = case.img.clone();
    case.call.run(&mut after);
    let undo = Undo::new(&case.img, &after);
    let mut img = case.img.clone();
    let mut turns: Vec<(f64, f64)> = Vec::new();
    for _ in 0..=effort.runs {
        let direct = repeated(effort.seconds, || {
            let start = now();
            black_box(library.lend(black_box(&mut img), &case.call));
            let took = now() - start;
            undo.restore(&mut img);
            took
        });
        let planned = repeated(effort.seconds, || {
            let mut lent = Windows::new();
            let start = now();
            for _ in 0..windows {
                black_box(lent.next(plans, black_box(&mut img), case));
            }
            now() - start
        });
        turns.push((direct, planned));
    }
    // the first turn warmed the buffers up and doesn't count
    let turns = &turns[1..];
    Times {
        direct: Spread::of(turns.iter().map(|t| t.0)),
        planned: Spread::of(turns.iter().map(|t| t.1)),
        ratio: Spread::of(turns.iter().map(|t| t.1 / t.0)),
    }
}

/// What was measured of a sweep on an image.
pub struct PlanRow {
    shape: Shape,
    steps: usize,
    times: Times,
}

/// One row for each shape whose sweep isn't too long, on its first image.
pub fn measured(library: &Library, shapes: &[(Shape, Vec<Settled>)], effort: Effort) -> Vec<PlanRow> {
    let plans = Plans::default();
    let mut rows = Vec::new();
    eprintln!("sweeps planned in windows");
    for (shape, images) in shapes {
        let Some(case) = case(Kind::Sweep, &images[0]) else { continue };
        let plan = case.call.plan(&case.img).expect("the sweep has room");
        let windows = plan.steps.len().div_ceil(SLOTS);
        if windows <= MOST_WINDOWS {
            agrees(&plans, &case, &plan);
            let times = times(library, &plans, &case, windows, effort);
            rows.push(PlanRow { shape: *shape, steps: plan.steps.len(), times });
        }
    }
    rows
}

const COLUMNS: [&str; 9] = [
    "image",
    "filled",
    "files",
    "steps",
    "windows",
    "direct, µs",
    "all windows, µs",
    "a window, µs",
    "all windows / direct",
];

pub fn table(rows: &[PlanRow]) -> String {
    let line = |PlanRow { shape, steps, times: t }: &PlanRow| {
        let windows = steps.div_ceil(SLOTS);
        vec![
            size(shape.n),
            shape.fill.word().to_string(),
            shape.files.to_string(),
            steps.to_string(),
            windows.to_string(),
            micros(t.direct),
            micros(t.planned),
            number(t.planned.median / windows as f64 * 1e6),
            spread(t.ratio),
        ]
    };
    table::table(&COLUMNS, 2, rows.iter().map(line))
}
