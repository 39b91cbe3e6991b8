//! The time of a replay (K7) and of the search for the first refused image: the trace of a put of
//! 1,000 bytes over an empty store, and one as long that programs what stands there already.
//!   replay
use model::Trace;
use std::time::Instant;
use testing::call::{formatted, Call};
use testing::replayer::Replayer;
use testing::traces::{planned_log, Log};
use testing::ALL;

/// The median of five calls, in microseconds, each over an image of its own.
fn median(img: &[u8], mut call: impl FnMut(&mut [u8])) -> f64 {
    let mut times: Vec<f64> = (0..5)
        .map(|_| {
            let mut lent = img.to_vec();
            let start = Instant::now();
            call(&mut lent);
            start.elapsed().as_secs_f64() * 1e6
        })
        .collect();
    times.sort_by(f64::total_cmp);
    times[times.len() / 2]
}

fn replay(library: &dyn Replayer, img: &mut [u8], trace: Trace) {
    let told = library.replay(img, trace).expect("it answers");
    assert_eq!((told.answer, told.stop), (0, 0));
}

fn search(library: &dyn Replayer, img: &mut [u8], trace: Trace) {
    let told = library.first_refused(img, trace).expect("it answers");
    assert_eq!((told.answer, told.there), (0, false));
}

fn main() {
    let library = library::Replays::default();
    println!("{:>9} {:>12} {:>8} {:>12} {:>12}", "KiB", "trace", "entries", "replay us", "search us");
    for kib in [8, 64, 1024, 16384] {
        let img = formatted(kib * 1024);
        let put = planned_log(&img, &Call::Put(b"dose".to_vec(), vec![0x33; 1000], ALL));
        let mut again = Log::default();
        put.kinds.iter().for_each(|_| again.push([1, 1, 0x5A]));
        for (what, log) in [("put", &put), ("again", &again)] {
            let whole = median(&img, |lent| replay(&library, lent, log.trace()));
            let looked = median(&img, |lent| search(&library, lent, log.trace()));
            println!("{kib:>9} {what:>12} {:>8} {whole:>12.1} {looked:>12.1}", log.len());
        }
    }
}
