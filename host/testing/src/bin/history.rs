//! Random histories of the model against the ledger, with the sweeps after each put.
//!   history SEED CALLS [N|0] [exhaust]
//! With KINDS in the environment, the table of the kinds of image seen.
use testing::call::Model;
use testing::history::{Seen, Tester, LONGEST};
use testing::maker::Maker;
use testing::{argument, rng::Rng};

fn main() {
    let (seed, total, only) = (argument(1, 1), argument(2, 100_000), argument(3, 0) as usize);
    let exhaust = std::env::args().nth(4).is_some_and(|x| x == "exhaust");
    let mut r = Rng::new(seed);
    let exhaust = if exhaust { 60 } else { 0 };
    let mut tester = Tester { store: &Model, exhaust, longest: LONGEST, one_of: 1, seen: Seen::default() };
    let lengths = if only > 0 { vec![only] } else { vec![8192, 12288, 16384, 20480] };
    if let Err(v) = tester.until(&mut r, total, &lengths, Maker::rich) {
        print!("{}", v.show(&Model));
        std::process::exit(1);
    }
    let seen = tester.seen;
    println!("seed {seed}: {} calls checked, no violation", seen.checked);
    println!("answers: {:?}", seen.answers);
    println!("calls cut inside a byte: {:?}", seen.inside);
    println!("images by the bytes that such cuts leave: {:?}", seen.bytes);
    println!("{}", seen.progress);
    println!("most live F8 at once: {}", seen.facts.most_f8);
    println!("facts broken (not demand 3): {:?}", seen.facts.broken);
    println!("{} kinds of image seen", seen.facts.kinds.len());
    if std::env::var("KINDS").is_ok() {
        for (kind, count) in &seen.facts.kinds {
            println!("{count:>9}  {kind}");
        }
    }
}
