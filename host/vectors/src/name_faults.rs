//! Wrong definitions of the name check (K5), and of what is passed on beside 22.
use crate::faults::{fault, Fault};

const CHECK: &str = "Record.antt";
const DOOR: &str = "Door.antt";

pub const NAME_FAULTS: &[Fault] = &[
    fault(
        "names: a space is a bad byte anywhere",
        &["name with a space", "file name with a space"],
        CHECK,
        "is_printable b || (is_space b && not (eqb i 0) && not (eqb (i + 1) k))",
        "is_printable b",
    ),
    fault(
        "names: a space may be the first byte",
        &["bad byte first"],
        CHECK,
        "(is_space b && not (eqb i 0) && not (eqb (i + 1) k))",
        "(is_space b && not (eqb (i + 1) k))",
    ),
    fault(
        "names: a space may be the last byte",
        &["bad byte last"],
        CHECK,
        "(is_space b && not (eqb i 0) && not (eqb (i + 1) k))",
        "(is_space b && not (eqb i 0))",
    ),
    fault(
        "names: the place counts from 1",
        &["bad byte inside"],
        CHECK,
        "true ↦ fault 3 bad",
        "true ↦ fault 3 (bad + 1)",
    ),
    fault("names: a bad byte has no place", &["bad byte inside"], CHECK, "true ↦ fault 3 bad", "true ↦ fault 3 0"),
    fault(
        "names: a final slash before a bad byte",
        &["bad byte first", "bad byte inside"],
        CHECK,
        "elim (ltb bad k) [",
        "elim (ltb bad k && not (ends_in_slash n)) [",
    ),
    fault(
        "names: a bad byte before too long",
        &["name too long"],
        CHECK,
        "elim (leb k 63) [",
        "elim (leb k 63 || ltb bad k) [",
    ),
    fault("names: 64 bytes are not too long", &["name too long"], CHECK, "elim (leb k 63) [", "elim (leb k 64) ["),
    fault("names: a final slash is taken", &["final slash"], CHECK, "true ↦ fault 4 0", "true ↦ fault 0 0"),
    fault(
        "names: the reason where N is bad too",
        &["refused name put 22", "refused name get 22"],
        DOOR,
        "if_good_length image (checked (name_ok name) (misnamed name) (settled_reading image))",
        "checked (name_ok name) (misnamed name) (if_good_length image (settled_reading image))",
    ),
    fault(
        "names: no reason beside 22",
        &["refused name remove 22", "refused name plan put 22"],
        DOOR,
        "misnamed name = record { number = 22; name = name_fault name }",
        "misnamed name = numbered 22",
    ),
    fault(
        "names: the image is judged before the name",
        &["refused name put 22"],
        DOOR,
        "if_good_length image (checked (name_ok name) (misnamed name) (settled_reading image))",
        "if_good_length image (onward (settled_reading image) (λ r. checked (name_ok name) (misnamed name) (give r)))",
    ),
    fault(
        "names: a stored name is not judged",
        &["stored name mount 5"],
        "Reading.antt",
        "true ↦ name_ok (name_of e)",
        "true ↦ true",
    ),
];
