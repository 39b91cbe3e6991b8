//! The store that got stuck under 01's rule (K6), with the library.
use model::faults::{self, Fault};
use model::{read_image, Reply};
use testing::c_calls::Library;
use testing::call::{formatted, Call, Store};
use testing::progress::gets_past;
use testing::stuck::{three_files, tiny_files};
use testing::ALL;

#[test]
fn the_put_is_refused_and_sweeps_get_past() {
    let library = Library::new(library::functions());
    for stuck in [three_files(), tiny_files()] {
        let mut img = formatted(8192);
        for (i, call) in stuck.puts.iter().enumerate() {
            let answer = library.call(&mut img, call).map(|reply| reply.answer);
            assert_eq!(answer, Ok(if i < stuck.taken { 0 } else { 28 }), "put {i}");
            if answer == Ok(0) {
                gets_past(&library, &img).expect("not stuck");
            }
        }
        assert_eq!(gets_past(&library, &img).map(|past| past.0), Ok(1 + stuck.taken as u64));
    }
}

/// A store that was filled by 01's rule stays stuck with this library, up to a remove.
#[test]
fn a_stuck_store_stays_stuck() {
    let library = Library::new(library::functions());
    let call = |img: &mut [u8], call: Call| library.call(img, &call).expect("good steps");
    for stuck in [three_files(), tiny_files()] {
        let mut img = formatted(8192);
        faults::with(Fault::RoomAsIn01, || stuck.puts.iter().for_each(|put| assert_eq!(put.run(&mut img).answer, 0)));
        assert!((0..3).any(|_| call(&mut img, Call::Sweep(ALL)).answer == 28));
        assert_eq!(call(&mut img, Call::Sweep(ALL)), Reply::refusal(28));
        assert_eq!(call(&mut img, Call::Put(b"x".to_vec(), vec![], ALL)), Reply::refusal(28));
        let head = read_image(&img).expect("a chain").records[0].name(&img).to_vec();
        assert_eq!(call(&mut img, Call::Remove(head, ALL)).answer, 0);
        assert_eq!(call(&mut img, Call::Sweep(ALL)).answer, 0);
    }
}
