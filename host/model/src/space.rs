//! Request K3: "live bytes (sizes of live records), dead bytes (other chain records, plus
//! 8 for a wrap marker), free bytes (the free run) and lost bytes (head's sector below the
//! head, plus what lies after a wrap marker up to N)".
use crate::chain::{read_chain, Chain};
use crate::flash::{Draft, Step};
use crate::geometry::*;
use crate::plan::{planned, Ask};

#[derive(Clone, Copy, PartialEq, Eq, Debug, Default)]
pub struct Space {
    pub live: u64,
    pub dead: u64,
    pub free: u64,
    pub lost: u64,
}

impl Space {
    pub fn sum(self) -> u64 {
        self.live + self.dead + self.free + self.lost
    }
}

/// "Each is counted by its own rule": of a chain that was read of an image of n bytes.
pub fn space(c: &Chain, n: u64) -> Space {
    let sizes = |live: bool| c.records.iter().filter(|r| r.live == live).map(|r| r.size).sum::<u64>();
    let marker = c.marker.map_or(0, |_| 8);
    let behind_marker = c.marker.map_or(0, |m| n - (m + 8));
    Space {
        live: sizes(true),
        dead: sizes(false) + marker,
        free: c.free_run(n).iter().map(|&(from, to)| to - from).sum(),
        lost: c.head - floor(c.head) + behind_marker,
    }
}

/// Of the image that these steps leave, on from this head.
pub(crate) fn space_after(img: &[u8], steps: &[Step], head: u64) -> Space {
    let mut after = Draft::new(img);
    after.extend(steps.iter().copied());
    read_chain(&after.img, head).map_or(Space::default(), |c| space(&c, img.len() as u64))
}

/// The record that mount, put or sweep gives back on this image: "on success .. on the
/// image mount leaves"; "sweep and put return the same record on success, for the image
/// they leave". "On a refusal or a cut they are zero."
pub fn space_told(img: &[u8], ask: Ask, allowance: u64) -> Space {
    match planned(img, ask) {
        Ok(plan) if plan.steps.len() as u64 <= allowance => plan.done.space,
        _ => Space::default(),
    }
}
