//! Wrong definitions of the verdict (K13): each with its rules in another order, or a part left out.
use crate::faults::{fault, Fault};

pub const VERDICT_FAULTS: &[Fault] = &[
    fault(
        "a bad name told as a mark",
        &["broken name"],
        "Fault.antt",
        "elim (name_wrong all before e) [\n            | true ↦ broken Rule.Name e.at",
        "elim (name_wrong all before e) [\n            | true ↦ broken Rule.Mark e.at",
    ),
    fault(
        "the earlier of two names",
        &["broken name"],
        "Fault.antt",
        "elim (record_fault x all before e) [",
        "elim (record_fault x all es e) [",
    ),
    fault(
        "free before the chain's end",
        &["broken end", "broken header"],
        "Fault.antt",
        "elim (whole r.ending) [\n      | true ↦ free_fault image r\n      | false",
        "elim (head_clean r.entries) [\n      | true ↦ free_fault image r\n      | false",
    ),
    fault(
        "a torn wrap out of place is a header",
        &["broken unfinished"],
        "Fault.antt",
        "shape_fault image p w Kind.TornMarker = Rule.Unfinished",
        "shape_fault image p w Kind.TornMarker = Rule.Header",
    ),
    fault(
        "the free run's first byte told as 0",
        &["broken free"],
        "Fault.antt",
        "dirt a (b ∷ s) = elim (eqb b 0xFF) [ true ↦ dirt (a + 1) s | false ↦ broken Rule.Free a ]",
        "dirt a (b ∷ s) = elim (eqb b 0xFF) [ true ↦ dirt (a + 1) s | false ↦ broken Rule.Free 0 ]",
    ),
    fault(
        "repair 2 told as repair 3",
        &["recovery 2"],
        "Verdict.antt",
        "elim (second_marked r.entries) [\n            | true ↦ 2",
        "elim (second_marked r.entries) [\n            | true ↦ 3",
    ),
];
