//! Bus traces (K7): those of planned calls, and each way to damage one.
use crate::call::Call;
use crate::compare::name_for;
use crate::rng::Rng;
use crate::ALL;
use model::planner::numbers;
use model::{good_length, planned, replay, Trace};

/// A trace: kinds, addresses, bytes.
#[derive(Clone, Debug, PartialEq, Eq, Default)]
pub struct Log {
    pub kinds: Vec<u32>,
    pub addresses: Vec<u32>,
    pub bytes: Vec<u32>,
}

impl Log {
    pub fn trace(&self) -> Trace<'_> {
        [&self.kinds, &self.addresses, &self.bytes]
    }

    pub fn len(&self) -> usize {
        self.kinds.len()
    }

    pub fn is_empty(&self) -> bool {
        self.kinds.is_empty()
    }

    pub fn push(&mut self, [kind, address, byte]: [u32; 3]) {
        self.kinds.push(kind);
        self.addresses.push(address);
        self.bytes.push(byte);
    }

    fn set(&mut self, i: usize, [kind, address, byte]: [u32; 3]) {
        (self.kinds[i], self.addresses[i], self.bytes[i]) = (kind, address, byte);
    }

    fn entry(&self, i: usize) -> [u32; 3] {
        [self.kinds[i], self.addresses[i], self.bytes[i]]
    }

    /// The first entries.
    fn first(&self, count: usize) -> Log {
        let part = |slice: &[u32]| slice[..count].to_vec();
        Log { kinds: part(&self.kinds), addresses: part(&self.addresses), bytes: part(&self.bytes) }
    }
}

/// All steps that K1 plans for this call on this image; none for a call that is refused.
pub fn planned_log(img: &[u8], call: &Call) -> Log {
    let mut log = Log::default();
    if let Ok(plan) = planned(img, call.ask().expect("a writing call")) {
        plan.steps.iter().for_each(|&step| log.push(numbers(step)));
    }
    log
}

/// A call that is planned.
pub fn writing_call(r: &mut Rng, img: &[u8]) -> Call {
    let name = if good_length(img.len() as u64) { name_for(r, img) } else { b"a".to_vec() };
    let length = r.of(&[0, 1, 3, 9, 24]);
    match r.below(4) {
        0 => Call::Put(name, vec![0x33; length], ALL),
        1 => Call::Remove(name, ALL),
        2 => Call::Sweep(ALL),
        _ => Call::Mount(ALL),
    }
}

/// The ways to damage an entry: each of the three, two at once, and some that stop nothing.
pub const WAYS: [&str; 12] = [
    "address N",
    "address past N",
    "greatest address",
    "erase inside a sector",
    "byte 256",
    "byte above, its low bits there",
    "unknown kind",
    "unknown kind past N",
    "a bit set",
    "erase with any byte",
    "programmed again",
    "stray program",
];

/// The trace with its entry i damaged in this way; the image is that before the trace.
pub fn damaged(r: &mut Rng, img: &[u8], log: &Log, i: usize, way: usize) -> Log {
    let mut now = img.to_vec();
    replay(&mut now, log.first(i).trace());
    let n = img.len() as u32;
    let [kind, address, byte] = log.entry(i);
    let anywhere = r.below(n.into()) as u32;
    let written = now.iter().position(|&b| b != 0xFF).map_or(anywhere, |at| at as u32);
    let entry = match way {
        0 => [kind, n, byte],
        1 => [kind, n + r.below(9000) as u32, byte],
        2 => [kind, u32::MAX, byte],
        3 => [2, (anywhere & !4095) + r.of(&[1, 8, 4095]), 0xFF],
        4 => [1, address.min(n - 1), 256],
        5 => [1, anywhere, 0x1_0000 | u32::from(now[anywhere as usize])],
        6 => [r.of(&[0, 3, 257, u32::MAX]), address, byte],
        7 => [r.of(&[0, 3, 258]), n + 1, byte],
        8 => [1, written, u32::from(now[written as usize]) | 1 << r.below(8)],
        9 => [2, anywhere & !4095, r.of(&[0, 255, 256, u32::MAX])],
        10 => [1, anywhere, now[anywhere as usize].into()],
        _ => [1, anywhere, u32::from(now[anywhere as usize]) & r.below(256) as u32],
    };
    let mut left = log.clone();
    left.set(i, entry);
    left
}

/// A stray program at entry i, which may break the image, and a stop right behind it.
pub fn stray_then_stop(r: &mut Rng, img: &[u8], log: &Log, i: usize) -> Log {
    let [stray, unknown] = ["stray program", "unknown kind"].map(way_of);
    let log = damaged(r, img, log, i, stray);
    damaged(r, img, &log, i + 1, unknown)
}

fn way_of(name: &str) -> usize {
    WAYS.iter().position(|&way| way == name).expect("a way to damage an entry")
}
