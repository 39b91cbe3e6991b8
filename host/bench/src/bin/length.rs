//! The time of a length (K8) beside that of a get, of the last file.
//!   length
#[path = "../images.rs"]
#[allow(dead_code)]
mod images;

use images::{settled, Fill};
use model::read_image;
use std::hint::black_box;
use std::time::Instant;
use testing::c_calls::Library;
use testing::call::Call;

/// The median of so many times, in microseconds, each of some calls.
fn median(calls: u32, mut call: impl FnMut()) -> f64 {
    let mut times: Vec<f64> = (0..15)
        .map(|_| {
            let start = Instant::now();
            (0..calls).for_each(|_| call());
            start.elapsed().as_secs_f64() * 1e6 / f64::from(calls)
        })
        .collect();
    times.sort_by(f64::total_cmp);
    times[times.len() / 2]
}

fn main() {
    let store = Library::new(library::functions());
    println!("{:>9} {:>6} {:>6} {:>12} {:>12}", "KiB", "files", "", "length us", "get us");
    for (n, files) in [(64, 16), (1024, 16), (16384, 16), (64, 512), (1024, 512), (16384, 512)] {
        for fill in [Fill::Empty, Fill::Full] {
            let Some(settled) = settled(n * 1024, files, fill, 0) else { continue };
            let (last, mut img) = (settled.last(), settled.img);
            let head = read_image(&img).expect("it is settled").head;
            let length = median(200, || _ = black_box(library::length_alone(black_box(&img), head, &last)));
            let get = Call::Get(last.clone());
            let whole = median(if n > 4096 { 3 } else { 20 }, || _ = black_box(store.lend(&mut img, &get)));
            println!("{n:>9} {files:>6} {:>6} {length:>12.2} {whole:>12.2}", fill.word());
        }
    }
}
