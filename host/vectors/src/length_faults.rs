//! Wrong definitions of a file's length (K8).
use crate::faults::{fault, Fault};

pub const LENGTH_FAULTS: &[Fault] = &[
    fault(
        "a length by F8 before FC",
        &["length: FC behind an F8 of its name"],
        "Length.antt",
        "or_else (first_such (of_name 0xFC name) es) (first_such (of_name 0xF8 name) es)",
        "or_else (first_such (of_name 0xF8 name) es) (first_such (of_name 0xFC name) es)",
    ),
    fault(
        "any record at the head of a length's walk",
        &["length 5"],
        "Length.antt",
        "right_mark first low = elim first [ true ↦ is_start low |",
        "right_mark first low = elim first [ true ↦ true |",
    ),
    fault(
        "a START further on in a length's walk",
        &["length 5"],
        "Length.antt",
        "| false ↦ is_record low ]",
        "| false ↦ true ]",
    ),
    fault(
        "a head at N for a length",
        &["length: head not below N"],
        "Length.antt",
        "head_fits N h = eqb (h % 8) 0 && ltb h N",
        "head_fits N h = eqb (h % 8) 0",
    ),
    fault(
        "a bad name on a length's walk",
        &["length 5"],
        "Length.antt",
        "[ true ↦ name_ok (name_of e) | false ↦ true ]",
        "[ true ↦ true | false ↦ true ]",
    ),
    fault(
        "a record's data looked at for a length",
        &["stretches of a length"],
        "Length.antt",
        "name_stretch at s = stretch (at + 8) (length (name_read s))",
        "name_stretch at s = stretch (at + 8) (length (name_read s) + 8)",
    ),
];
