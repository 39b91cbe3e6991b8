//! Wrong definitions of the room rule (K6): each part of it left out or turned.
use crate::faults::{fault, Fault};

pub const ROOM_FAULTS: &[Fault] = &[
    fault(
        "room for one more record is enough",
        &["room for one more, not two"],
        "Place.antt",
        "(joining p s ++ (l ∷ l ∷ []))",
        "(joining p s ++ (l ∷ []))",
    ),
    fault(
        "the replaced file counts for the largest size",
        &["room, the replaced one out"],
        "Place.antt",
        "largest s (keep (other_name name) (files es))",
        "largest s (files es)",
    ),
    fault(
        "the replaced file counts in the head's sector",
        &["room, the replaced one out of the head's sector"],
        "Place.antt",
        "keep (begins_there p) (keep (other_name name) (files es))",
        "keep (begins_there p) (files es)",
    ),
    fault(
        "the room rule of 01",
        &["no room, but by 01's rule"],
        "Place.antt",
        "(standing p name es ++ (joining p s ++ (l ∷ l ∷ [])))",
        "(l ∷ l ∷ [])",
    ),
    fault(
        "put asks for no room behind its record",
        &["put 28", "no room, but by 01's rule"],
        "Place.antt",
        "fits_all p (s ∷ (standing p name es ++ (joining p s ++ (l ∷ l ∷ []))))",
        "fits_all p (s ∷ [])",
    ),
    fault(
        "the largest are placed before the others",
        &["room: the largest first tells"],
        "Place.antt",
        "(standing p name es ++ (joining p s ++ (l ∷ l ∷ [])))",
        "(l ∷ l ∷ (standing p name es ++ joining p s))",
    ),
    fault(
        "the new record is placed before the others",
        &["room: the new one first tells"],
        "Place.antt",
        "(standing p name es ++ (joining p s ++ (l ∷ l ∷ [])))",
        "(joining p s ++ (standing p name es ++ (l ∷ l ∷ [])))",
    ),
    fault(
        "the others in the head's sector are not counted",
        &["no room, but without the others there"],
        "Place.antt",
        "(standing p name es ++ (joining p s ++ (l ∷ l ∷ [])))",
        "(joining p s ++ (l ∷ l ∷ []))",
    ),
    fault(
        "the new record is not counted in the head's sector",
        &["no room, but without the new one there"],
        "Place.antt",
        "(standing p name es ++ (joining p s ++ (l ∷ l ∷ [])))",
        "(standing p name es ++ (l ∷ l ∷ []))",
    ),
    fault(
        "dead records of the head's sector are counted",
        &["room: others there"],
        "Place.antt",
        "keep (begins_there p) (keep (other_name name) (files es))",
        "keep (begins_there p) (keep (other_name name) es)",
    ),
];
