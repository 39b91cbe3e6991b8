//! Wrong definitions of the replay (K7).
use crate::faults::{fault, Fault};

const FILE: &str = "Trace.antt";

pub const TRACE_FAULTS: &[Fault] = &[
    fault("trace: the address N is taken", &["address N"], FILE, "not (ltb a N)", "ltb N a"),
    fault(
        "trace: an erase inside a sector",
        &["erase inside a sector"],
        FILE,
        "(eqb kind 2 && not (eqb (a % 4096) 0))",
        "(eqb kind 2 && not (eqb a a))",
    ),
    fault("trace: a byte of 256", &["byte 256"], FILE, "ltb 255 b", "ltb 256 b"),
    fault("trace: an erase's byte counts", &["erase with any byte"], FILE, "(eqb kind 1 && ltb 255 b)", "ltb 255 b"),
    fault(
        "trace: the kind is tested first",
        &["unknown kind past N"],
        FILE,
        "elim (out_of_range (length image) kind a b) [",
        "elim (out_of_range (length image) kind a b && known_kind kind) [",
    ),
    fault("trace: kind 0 is taken", &["unknown kind"], FILE, "eqb kind 1 || eqb kind 2", "ltb kind 3"),
    fault(
        "trace: bits may be set",
        &["a bit set"],
        FILE,
        "eqb kind 1 && not (clears (get_or image a 0) b)",
        "eqb kind 1 && not (eqb b b)",
    ),
    fault(
        "trace: the stop is carried out",
        &["a bit set"],
        FILE,
        "| false ↦ replayed 0 n (fault image k a b) image",
        "| false ↦ replayed 0 n (fault image k a b) (apply image (step_of k a b))",
    ),
    fault(
        "trace: the position counts from 1",
        &["trace: stop 1"],
        FILE,
        "| false ↦ replayed 0 n (fault image k a b) image",
        "| false ↦ replayed 0 (suc n) (fault image k a b) image",
    ),
    fault(
        "trace: the first image is not looked at",
        &["trace: mount refuses at 0"],
        FILE,
        "elim (mount_refuses image) [",
        "elim (mount_refuses image && ltb 0 n) [",
    ),
    fault(
        "trace: the image at a stop is not looked at",
        &["trace: mount refuses at the stop"],
        FILE,
        "elim (mount_refuses image) [",
        "elim (mount_refuses image && is_sound image k a b) [",
    ),
    fault(
        "trace: the image behind the last entry is not looked at",
        &["trace: mount refuses at the end"],
        FILE,
        "watch_on n image [] xs bs = refusing 0 (mount_refuses image) n image",
        "watch_on n image [] xs bs = refusing 0 false n image",
    ),
    fault(
        "trace: the count counts from 1",
        &["trace: mount refuses later"],
        FILE,
        "| true ↦ refusing 0 true n image",
        "| true ↦ refusing 0 true (suc n) image",
    ),
    fault(
        "trace: unequal slices are taken",
        &["trace: refused"],
        FILE,
        "good_length (length image) && equal_lengths s",
        "good_length (length image)",
    ),
];
