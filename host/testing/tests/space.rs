//! Request K3 on the model: on random images the four numbers of an answer 0 sum to N, and
//! of a refusal or a cut they are zero.
use model::*;
use testing::aimed::{superseded, tight, unfinished_last};
use testing::call::Call;
use testing::compare::name_for;
use testing::images::{built, damage, of_history};
use testing::maker::Maker;
use testing::odd;
use testing::rng::Rng;
use testing::ALL;

/// What the answers 0 were, so that no case is missing.
#[derive(Default, Debug)]
struct Seen {
    done: u64,
    zero: u64,
    repaired: u64,
    marked: u64,
    turned_at_n: u64,
    below_head: u64,
}

impl Seen {
    fn add(&mut self, reply: &Reply, left: &Chain, told: Space) {
        self.done += 1;
        self.repaired += (reply.steps > 0) as u64;
        self.marked += left.marker.is_some() as u64;
        self.turned_at_n += (left.turned && left.marker.is_none()) as u64;
        self.below_head += (told.lost > 0) as u64;
    }
}

/// The image with each byte painted: what stands in a live record L, in another D, in a
/// marker M, in the free run F, below the head or behind a marker X. None is painted twice.
fn painted(c: &Chain, n: u64) -> Vec<u8> {
    let mut paint = vec![b'.'; n as usize];
    let mut fill = |from: u64, to: u64, colour: u8| {
        for byte in &mut paint[from as usize..to as usize] {
            assert_eq!(*byte, b'.', "two colours");
            *byte = colour;
        }
    };
    c.records.iter().for_each(|r| fill(r.at, r.at + r.size, if r.live { b'L' } else { b'D' }));
    c.free_run(n).iter().for_each(|&(from, to)| fill(from, to, b'F'));
    fill(floor(c.head), c.head, b'X');
    if let Some(m) = c.marker {
        fill(m, m + 8, b'M');
        fill(m + 8, n, b'X');
    }
    paint
}

/// The call on this image, cut or not.
fn check(img: &[u8], call: &Call, seen: &mut Seen) {
    let (ask, allowance) = match call {
        Call::Mount(k) => (Ask::Mount, *k),
        Call::Put(name, data, k) => (Ask::Put(name, data), *k),
        Call::Sweep(k) => (Ask::Sweep, *k),
        _ => return,
    };
    let told = space_told(img, ask, allowance);
    let mut after = img.to_vec();
    let reply = call.run(&mut after);
    assert_eq!(told, reply.space);
    if reply.answer != 0 {
        assert_eq!(told, Space::default());
        seen.zero += 1;
        return;
    }
    let n = img.len() as u64;
    assert_eq!(told.sum(), n);
    let left = head_left(img, &after, call, &reply);
    let paint = painted(&left, n);
    let count = |colours: &[u8]| paint.iter().filter(|b| colours.contains(b)).count() as u64;
    assert_eq!(told, Space { live: count(b"L"), dead: count(b"DM"), free: count(b"F"), lost: count(b"X") });
    seen.add(&reply, &left, told);
}

/// The chain that is read on from the head that the call left: mount tells it, a put keeps it.
fn head_left(before: &[u8], after: &[u8], call: &Call, reply: &Reply) -> Chain {
    let head = match call {
        Call::Mount(_) => reply.report.head,
        Call::Put(..) => read_image(before).expect("accepted").head,
        _ => swept_head(before, reply.moves as usize),
    };
    read_chain(after, head).expect("legal")
}

/// The head behind so many moves: the next record of the chain at entry, or the first copy,
/// which went to the tail or, where it doesn't end by N, to 0.
fn swept_head(before: &[u8], moves: usize) -> u64 {
    let c = read_image(before).expect("accepted");
    c.records.get(moves).map_or_else(
        || {
            let first = c.live().next().expect("the last record was moved").size;
            if c.turned || c.tail + first <= before.len() as u64 {
                c.tail
            } else {
                0
            }
        },
        |y| y.at,
    )
}

fn image(r: &mut Rng) -> Vec<u8> {
    let n = r.of(&[8192, 8192, 12288]);
    let maker = if r.chance(50) { Maker::with_markers(r) } else { Maker::rich(r) };
    let mut img = match r.below(5) {
        0 => built(r, n, false),
        1 => tight(r, n),
        2 => odd::chain(r, n),
        _ => of_history(r, n, &maker, 60),
    };
    match r.below(6) {
        0 => damage(r, &mut img),
        1 => superseded(r, &mut img),
        2 => unfinished_last(r, &mut img),
        _ => (),
    }
    img
}

#[test]
fn the_numbers_sum_to_n() {
    let mut r = Rng::new(3);
    let mut seen = [Seen::default(), Seen::default(), Seen::default()];
    for _ in 0..6000 {
        let mut img = image(&mut r);
        let cut = |r: &mut Rng| if r.chance(85) { ALL } else { r.below(12) };
        check(&img, &Call::Mount(cut(&mut r)), &mut seen[0]);
        mount(&mut img, ALL);
        let name = name_for(&mut r, &img);
        let data = vec![0x33; r.of(&[0, 3, 24, 400, 1000])];
        check(&img, &Call::Put(name, data, cut(&mut r)), &mut seen[1]);
        check(&img, &Call::Sweep(cut(&mut r)), &mut seen[2]);
    }
    for (call, s) in ["mount", "put", "sweep"].iter().zip(&seen) {
        let few = [s.done, s.zero, s.repaired, s.marked, s.turned_at_n, s.below_head].into_iter().min();
        assert!(few >= Some(20), "{call}: {s:?}");
    }
}
