//! Times of one call: the library's, the baseline's, and a scan's.
use crate::cases::Case;
use model::Reply;
use std::hint::black_box;
use testing::c_calls::Library;

/// How long is measured.
#[derive(Clone, Copy)]
pub struct Effort {
    /// each ratio is the median of so many runs
    pub runs: usize,
    /// a run repeats its call until it took so many seconds
    pub seconds: f64,
    /// a run makes one call, after other bytes took the caches
    pub cold: bool,
}

/// A median, with the least and the most.
#[derive(Clone, Copy)]
pub struct Spread {
    pub median: f64,
    pub least: f64,
    pub most: f64,
}

impl Spread {
    pub fn of(values: impl Iterator<Item = f64>) -> Spread {
        let mut values: Vec<f64> = values.collect();
        values.sort_by(f64::total_cmp);
        Spread { median: values[values.len() / 2], least: values[0], most: values[values.len() - 1] }
    }
}

/// Seconds, and ratios of times that were taken next to each other.
pub struct Times {
    pub library: Spread,
    pub baseline: Spread,
    pub scan: Spread,
    pub to_baseline: Spread,
    pub to_scan: Spread,
}

/// Seconds of this thread on the processor: what other programs take doesn't count.
pub fn now() -> f64 {
    #[repr(C)]
    struct Timespec {
        seconds: i64,
        nanoseconds: i64,
    }
    extern "C" {
        fn clock_gettime(clock: i32, time: *mut Timespec) -> i32;
    }
    // CLOCK_THREAD_CPUTIME_ID of Linux
    const THREAD: i32 = 3;
    let mut t = Timespec { seconds: 0, nanoseconds: 0 };
    // Safety: the pointer is to a Timespec, which the function fills.
    assert_eq!(unsafe { clock_gettime(THREAD, &mut t) }, 0);
    t.seconds as f64 + t.nanoseconds as f64 * 1e-9
}

/// What it takes to ask for the time, which is part of every time that is taken.
fn clock() -> f64 {
    Spread::of((0..101).map(|_| {
        let start = now();
        now() - start
    }))
    .median
}

/// The bytes that a call writes, as stretches of the image before it.
pub struct Undo<'a> {
    before: &'a [u8],
    stretches: Vec<(usize, usize)>,
}

impl Undo<'_> {
    /// Stretches of whole words, joined where they touch.
    pub fn new<'a>(before: &'a [u8], after: &[u8]) -> Undo<'a> {
        let mut stretches: Vec<(usize, usize)> = Vec::new();
        for (i, (old, new)) in before.chunks(8).zip(after.chunks(8)).enumerate() {
            if old != new {
                let (from, to) = (8 * i, 8 * i + old.len());
                match stretches.last_mut() {
                    Some(last) if last.1 == from => last.1 = to,
                    _ => stretches.push((from, to)),
                }
            }
        }
        Undo { before, stretches }
    }

    pub fn restore(&self, img: &mut [u8]) {
        for &(from, to) in &self.stretches {
            img[from..to].copy_from_slice(&self.before[from..to]);
        }
    }
}

/// Bytes that take the caches: twice the largest.
struct Others(Vec<u8>);

impl Others {
    const BYTES: usize = 64 << 20;

    /// Each line is written.
    fn take_caches(&mut self) {
        self.0.chunks_mut(64).for_each(|line| line[0] = line[0].wrapping_add(1));
        black_box(&self.0);
    }
}

/// A case and the copies of its image that it is measured on.
struct Bench<'a> {
    case: &'a Case,
    undo: Undo<'a>,
    copies: Vec<Vec<u8>>,
    /// if the caches are to be cold
    others: Option<Others>,
}

/// Short calls are timed several at once, each on a copy of the image, so that they take at least so many seconds.
const AT_ONCE: f64 = 1e-5;
const MOST_COPIES: usize = 16;
/// The copies take so many bytes at most.
const MOST_BYTES: usize = 64 << 20;

impl Bench<'_> {
    /// Both are right: they do what the model does. The faster one says how many copies there are.
    fn new<'a>(library: &Library, baseline: &Library, case: &'a Case, cold: bool) -> Bench<'a> {
        let mut after = case.img.clone();
        let reply = case.call.run(&mut after);
        for store in [library, baseline] {
            agrees(store, case, &reply, &after);
        }
        let others = cold.then(|| Others(vec![0; Others::BYTES]));
        let mut bench = Bench { case, undo: Undo::new(&case.img, &after), copies: vec![case.img.clone()], others };
        if cold {
            return bench;
        }
        let once = bench.run(baseline, 0.0001);
        let copies = (AT_ONCE / once) as usize;
        let most = MOST_COPIES.min(MOST_BYTES / case.img.len());
        bench.copies.resize(copies.clamp(1, most), case.img.clone());
        bench
    }

    fn run(&mut self, store: &Library, seconds: f64) -> f64 {
        if let Some(others) = &mut self.others {
            others.take_caches();
            return (self.call_each(store) - clock()).max(0.0);
        }
        if self.undo.stretches.is_empty() {
            self.run_reading(store, seconds)
        } else {
            self.run_writing(store, seconds)
        }
    }

    /// A call that leaves the image as it is can be repeated on it.
    fn run_reading(&mut self, store: &Library, seconds: f64) -> f64 {
        let (img, call) = (&mut self.copies[0], &self.case.call);
        repeated(seconds, || {
            black_box(store.lend(black_box(img), call));
        })
    }

    /// One call on each copy, over and over; a first time that isn't long warms the buffers up and doesn't count.
    fn run_writing(&mut self, store: &Library, seconds: f64) -> f64 {
        let clock = clock();
        let first = self.call_each(store) - clock;
        let (mut took, mut times) = if first < seconds { (0.0, 0) } else { (first, 1) };
        while took < seconds {
            took += (self.call_each(store) - clock).max(0.0);
            times += 1;
        }
        took / (times * self.copies.len()) as f64
    }

    /// The time of one call on each copy. What they wrote is restored after it, which isn't counted.
    fn call_each(&mut self, store: &Library) -> f64 {
        let start = now();
        for img in &mut self.copies {
            black_box(store.lend(black_box(img), &self.case.call));
        }
        let took = now() - start;
        self.copies.iter_mut().for_each(|img| self.undo.restore(img));
        took
    }

    fn scan(&mut self, seconds: f64) -> f64 {
        let seconds = if self.others.is_some() { 0.0 } else { seconds };
        self.others.iter_mut().for_each(Others::take_caches);
        let img = &self.copies[0];
        repeated(seconds, || {
            black_box(baseline::scan(black_box(img)));
        })
    }
}

/// The time of one call: so many of them at once that the clock's own time doesn't tell.
fn repeated(seconds: f64, mut call: impl FnMut()) -> f64 {
    let mut times = 1;
    loop {
        let start = now();
        for _ in 0..times {
            call();
        }
        let took = now() - start;
        if took >= seconds {
            return took / times as f64;
        }
        times *= 2;
    }
}

fn agrees(store: &Library, case: &Case, reply: &Reply, after: &[u8]) {
    let mut img = case.img.clone();
    assert_eq!(store.lend(&mut img, &case.call), *reply, "{}", case.call.kind());
    assert!(img == after, "{}: another image", case.call.kind());
}

/// The times of a call on these images, by turns; library, C and scan take turns on each, so that they share what else the
/// machine does, and library and C go first by turns.
pub fn times(library: &Library, baseline: &Library, cases: &[Case], effort: Effort) -> Times {
    let mut benches: Vec<Bench> = cases.iter().map(|case| Bench::new(library, baseline, case, effort.cold)).collect();
    let mut turns: Vec<(f64, f64, f64)> = Vec::new();
    for turn in 0..=effort.runs {
        let bench = &mut benches[turn % cases.len()];
        let stores = if turn % 2 == 0 { [library, baseline] } else { [baseline, library] };
        let mut both = stores.map(|store| bench.run(store, effort.seconds));
        both.rotate_left(turn % 2);
        turns.push((both[0], both[1], bench.scan(effort.seconds)));
    }
    // the first turn warmed the buffers up and doesn't count
    let turns = &turns[1..];
    Times {
        library: Spread::of(turns.iter().map(|t| t.0)),
        baseline: Spread::of(turns.iter().map(|t| t.1)),
        scan: Spread::of(turns.iter().map(|t| t.2)),
        to_baseline: Spread::of(turns.iter().map(|t| t.0 / t.1)),
        to_scan: Spread::of(turns.iter().map(|t| t.0 / t.2)),
    }
}
