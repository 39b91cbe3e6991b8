//! K9 through C: the longest mounts against the bound, step by step as the boot code
//! would see them. `cuts` holds every call of its histories to its bound.
use testing::bounds::{format_count, mount_by_head, mount_most, put_most, sweep_most};
use testing::c_calls::Library;
use testing::call::{Call, Store};
use testing::worst::{image, Before};
use testing::ALL;

/// The reply's steps; the call must answer 0.
fn steps(library: &Library, img: &mut [u8], call: &Call) -> u64 {
    let reply = library.call(img, call).expect("a reply");
    assert_eq!(reply.answer, 0, "{} of {} bytes", call.kind(), img.len());
    reply.steps
}

#[test]
fn longest_mounts_are_within_the_bound() {
    let library = Library::new(library::functions());
    for n in [8192, 12288, 16384, 65536, 1 << 20, 16 << 20] {
        for before in [Before::Nothing, Before::Filler].into_iter().filter(|&b| b == Before::Nothing || n > 16384) {
            let (mut img, data) = image(&library, n, before);
            let (length, taken) = (n as u64, steps(&library, &mut img, &Call::Mount(ALL)));
            println!("N {n}, {before:?}: {data} bytes at the head, {taken} steps, bound {}", mount_most(length));
            assert!(taken <= mount_most(length) && taken <= mount_by_head(length, data as u64));
            assert_eq!(steps(&library, &mut img, &Call::Mount(0)), 0);
            // the other calls, on the image that mount left
            assert!(steps(&library, &mut img, &Call::Sweep(ALL)) <= sweep_most(length));
            let put = Call::Put(b"x".to_vec(), vec![1, 2, 3], ALL);
            assert!(steps(&library, &mut img, &put) <= put_most(b"x", &[1, 2, 3]));
            assert_eq!(steps(&library, &mut img, &Call::Remove(b"x".to_vec(), ALL)), 1);
            assert_eq!(steps(&library, &mut img, &Call::Format(ALL)), format_count(length));
        }
    }
}
