//! Wrong definitions of the four numbers (K3): each rule with a part left out.
use crate::faults::{fault, Fault};

pub const SPACE_FAULTS: &[Fault] = &[
    fault(
        "a marker's 8 bytes aren't dead",
        &["space: marker"],
        "Space.antt",
        "marker_bytes (some m) = 8",
        "marker_bytes (some m) = 0",
    ),
    fault(
        "what lies behind a marker isn't lost",
        &["space: marker, bytes behind it"],
        "Space.antt",
        "behind_marker N (some m) = N - (m + 8)",
        "behind_marker N (some m) = 0",
    ),
    fault(
        "a marker's own bytes are lost",
        &["space: marker"],
        "Space.antt",
        "behind_marker N (some m) = N - (m + 8)",
        "behind_marker N (some m) = N - m",
    ),
    fault(
        "nothing below the head is lost",
        &["space: below the head"],
        "Space.antt",
        "(p.head - floor p.head) + behind_marker",
        "0 + behind_marker",
    ),
    fault(
        "before the turn the head's lower sectors aren't free",
        &["space: not turned"],
        "Space.antt",
        "false ↦ (p.length - p.tail) + floor p.head",
        "false ↦ p.length - p.tail",
    ),
    fault(
        "dead records aren't counted",
        &["space: dead file"],
        "Space.antt",
        "dead_bytes es marker = sizes (others es) + marker_bytes marker",
        "dead_bytes es marker = marker_bytes marker",
    ),
    fault(
        "a sweep tells the image before it",
        &["space of sweep 0"],
        "Space.antt",
        "swept (suc k) image r = elim (stuck r) [",
        "swept (suc k) image r = elim true [",
    ),
    fault(
        "a put tells the image before it",
        &["space of put 0"],
        "Space.antt",
        "(put_steps r.place (file_named name r.entries) name content) r.place.head",
        "[] r.place.head",
    ),
];
