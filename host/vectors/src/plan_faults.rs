//! Wrong definitions of the planner (K1).
use crate::faults::{fault, Fault};

const FILE: &str = "Planner.antt";

pub const PLAN_FAULTS: &[Fault] = &[
    fault(
        "plan: the first step is left out",
        &["plan: from step 0"],
        FILE,
        "window first (shortest s) (steps_of a)",
        "window first (shortest s) (drop 1 (steps_of a))",
    ),
    fault(
        "plan: an erase's byte is 00",
        &["plan: an erase"],
        FILE,
        "byte_of (erase a) = 0xFF",
        "byte_of (erase a) = 0x00",
    ),
    fault("plan: an erase's kind is 1", &["plan: an erase"], FILE, "kind_of (erase a) = 2", "kind_of (erase a) = 1"),
    fault(
        "plan: a window begins one step too far",
        &["plan: from inside"],
        FILE,
        "take m (drop first ss)",
        "take m (drop (suc first) ss)",
    ),
    fault(
        "plan: a window is one longer than the shortest slice",
        &["plan: ends before the list"],
        FILE,
        "take m (drop first ss)",
        "take (suc m) (drop first ss)",
    ),
    fault(
        "plan: the kinds alone count",
        &["plan: unequal slices"],
        FILE,
        "min (length s.kinds) (min (length s.addresses) (length s.bytes))",
        "length s.kinds",
    ),
    fault(
        "plan: slots that get nothing go",
        &["plan: slots left over", "plan: refused, with slots"],
        FILE,
        "column ++ drop (length column) old",
        "column",
    ),
    fault(
        "plan: the numbers are those of no step",
        &["plan sweep 0", "plan mount 0", "plan put 0"],
        FILE,
        "done_numbers (give p) = p.done",
        "done_numbers (give p) = (carry_out [] 0 (give p)).numbers",
    ),
    fault(
        "plan: erases are carried out as programs",
        &["plan: carried out"],
        FILE,
        "elim (eqb k 2) [ true ↦ erase a | false ↦ program a b ]",
        "program a b",
    ),
    fault(
        "plan: the next window begins where this one did",
        &["plan: carried out"],
        FILE,
        "in_turn c image (first + h.handed) rest",
        "in_turn c image first rest",
    ),
    fault(
        "plan: the marker behind the record",
        &["plan: a marker"],
        "Write.antt",
        "(turn_steps p s ++ (shifted (address p s) (record_steps name content) ++ delete_steps old))",
        "(shifted (address p s) (record_steps name content) ++ (turn_steps p s ++ delete_steps old))",
    ),
];
