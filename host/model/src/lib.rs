//! Document 01 with requests K14, K6, K1, K3, K5 and K7 of document 02, read literally, as a
//! program: what each call answers and leaves.
//!
//! One module for each section of 01; quoted text is the documents' own, a request's
//! where it is named.
//! Where the document leaves a choice, the number of the entry in docs/DECISIONS.md
//! stands in brackets, as in (decision 6).
//!
//! The model is the oracle of the tests. It is written for reading, not for
//! speed: a call works its step list out on a copy of the image, and the list
//! is then carried out as far as the allowance goes.

pub mod bits;
pub mod calls;
pub mod chain;
pub mod check;
pub mod faults;
pub mod files;
pub mod flash;
pub mod geometry;
pub mod head;
pub mod length;
pub mod log;
pub mod names;
pub mod place;
pub mod plan;
pub mod planner;
pub mod repair;
pub mod rules;
pub mod space;
pub mod sweep;
pub mod torn;
pub mod trace;
pub mod write;

pub use calls::{format, get, list, mount, put, remove, sweep, Extent, Refusal, Reply, Report};
pub use chain::{read_chain, Chain, Record};
pub use check::{check, Rule, Verdict};
pub use flash::{carry_out, cut_inside, Step};
pub use geometry::*;
pub use head::{find_head, walk};
pub use length::length;
pub use names::{good_name, name_fault, NameFault};
pub use place::{put_room, sizes_behind, Place, Placed};
pub use plan::{planned, Ask, Plan};
pub use planner::{hand_out, plan_out, Handing};
pub use rules::{read_image, settled};
pub use space::{space, space_told, Space};
pub use trace::{first_refused, replay, Refusing, Replayed, Trace};
