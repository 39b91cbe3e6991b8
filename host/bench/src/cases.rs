//! What is measured: a call on an image.
use crate::images::{Fill, Settled, CONTENT};
use model::{floor, read_image, Step, SECTOR};
use testing::call::Call;
use testing::ALL;

#[derive(Clone, Copy, PartialEq, Eq, Debug)]
pub enum Kind {
    Mount,
    Get,
    List,
    Put,
    /// a put of a sixteenth of the image
    PutLong,
    Remove,
    Sweep,
    /// a mount after a put that was cut before it deleted the old file
    MountPut,
    /// a mount after a sweep that was cut when it had made the next record CLEAN
    MountMove,
    /// a mount of a CLEAN head, with one sector not yet erased
    MountClean,
}

impl Kind {
    pub const ALL: [Kind; 10] = [
        Kind::Mount,
        Kind::Get,
        Kind::List,
        Kind::Put,
        Kind::PutLong,
        Kind::Remove,
        Kind::Sweep,
        Kind::MountPut,
        Kind::MountMove,
        Kind::MountClean,
    ];

    /// Its name as an option.
    pub fn word(self) -> &'static str {
        match self {
            Kind::Mount => "mount",
            Kind::Get => "get",
            Kind::List => "list",
            Kind::Put => "put",
            Kind::PutLong => "put-long",
            Kind::Remove => "remove",
            Kind::Sweep => "sweep",
            Kind::MountPut => "mount-put",
            Kind::MountMove => "mount-move",
            Kind::MountClean => "mount-clean",
        }
    }

    pub fn title(self) -> &'static str {
        match self {
            Kind::Mount => "mount of a settled image",
            Kind::Get => "get of the last file",
            Kind::List => "list of the last file",
            Kind::Put => "put of 16 bytes over the last file",
            Kind::PutLong => "put of N/16 bytes over the last file",
            Kind::Remove => "remove of the last file",
            Kind::Sweep => "sweep",
            Kind::MountPut => "mount after a put cut before the old file is deleted",
            Kind::MountMove => "mount after a cut move",
            Kind::MountClean => "mount of a CLEAN head, one sector to erase",
        }
    }
}

pub struct Case {
    pub img: Vec<u8>,
    pub call: Call,
}

/// The case of a settled image; none if there is no room for it.
pub fn case(kind: Kind, settled: &Settled) -> Option<Case> {
    let (img, last, files) = (&settled.img, settled.last(), settled.names.len());
    let put = Call::Put(last.clone(), CONTENT.to_vec(), ALL);
    let (img, call) = match kind {
        Kind::Mount => (img.to_vec(), Call::Mount(ALL)),
        Kind::Get => (img.to_vec(), Call::Get(last)),
        Kind::List => (img.to_vec(), Call::List(files as u64 - 1)),
        Kind::Put => (img.to_vec(), put),
        Kind::PutLong => (img.to_vec(), Call::Put(last, vec![0x77; img.len() / 16], ALL)),
        Kind::Remove => (img.to_vec(), Call::Remove(last, ALL)),
        Kind::Sweep => (img.to_vec(), Call::Sweep(ALL)),
        Kind::MountPut => (cut(img, &put, put.need(img) - 1), Call::Mount(ALL)),
        Kind::MountMove => (cut(img, &Call::Sweep(ALL), steps_to_clean(img)), Call::Mount(ALL)),
        Kind::MountClean => (clean_head(img), Call::Mount(ALL)),
    };
    let reply = call.run(&mut img.clone());
    (reply.answer == 0).then_some(Case { img, call })
}

/// What a call with this allowance leaves.
fn cut(img: &[u8], call: &Call, allowance: u64) -> Vec<u8> {
    let mut left = img.to_vec();
    call.with_allowance(allowance).run(&mut left);
    left
}

/// The steps of a sweep up to the one that makes a record CLEAN.
fn steps_to_clean(img: &[u8]) -> u64 {
    let plan = Call::Sweep(ALL).plan(img).expect("the sweep has room");
    let clean = plan.steps.iter().position(|s| matches!(s, Step::Program(_, 0xA0)));
    clean.expect("the sweep makes a move") as u64 + 1
}

/// The head CLEAN, and a sector behind the tail's own full of remains.
fn clean_head(img: &[u8]) -> Vec<u8> {
    let chain = read_image(img).expect("it is settled");
    let mut img = img.to_vec();
    img[chain.head as usize] = 0xA0;
    let next = (floor(chain.tail) + SECTOR) as usize;
    img[next..next + SECTOR as usize].fill(0x11);
    img
}

/// An image's size, and how many files it has, and how full it is.
#[derive(Clone, Copy)]
pub struct Shape {
    pub n: usize,
    pub files: usize,
    pub fill: Fill,
}

#[cfg(test)]
mod tests {
    use super::*;
    use crate::images::settled;

    #[test]
    fn each_case_does_what_its_title_says() {
        for fill in [Fill::Empty, Fill::Full] {
            for files in [1, 16, 2048] {
                let img = settled(64 * 1024, files, fill, 0).expect("it fits");
                for kind in Kind::ALL {
                    let Some(Case { mut img, call }) = case(kind, &img) else {
                        assert!(kind == Kind::PutLong && (fill == Fill::Full || files == 2048), "{kind:?}");
                        continue;
                    };
                    let reply = call.run(&mut img);
                    let steps = match kind {
                        Kind::Mount | Kind::Get | Kind::List => 0..=0,
                        Kind::Remove | Kind::MountPut => 1..=1,
                        Kind::MountClean => 3..=3,
                        _ => 2..=u64::MAX,
                    };
                    assert!(steps.contains(&reply.steps), "{kind:?}: {} steps", reply.steps);
                }
            }
        }
    }
}
