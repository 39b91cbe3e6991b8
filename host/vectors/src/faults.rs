//! Wrong definitions, one textual edit each: the vectors must notice every one.
use crate::computed::{check_edited, shared, Edit};
use crate::emit::Vector;
use crate::inside_faults::INSIDE_FAULTS;
use crate::length_faults::LENGTH_FAULTS;
use crate::name_faults::NAME_FAULTS;
use crate::plan_faults::PLAN_FAULTS;
use crate::room_faults::ROOM_FAULTS;
use crate::space_faults::SPACE_FAULTS;
use crate::trace_faults::TRACE_FAULTS;
use crate::verdict_faults::VERDICT_FAULTS;
use std::path::Path;

pub struct Fault {
    what: &'static str,
    edit: Edit,
    /// only vectors of these kinds are run
    aim: &'static [&'static str],
}

/// At most this many vectors are run for a fault.
const MOST: usize = 30;

pub const fn fault(
    what: &'static str,
    aim: &'static [&'static str],
    file: &'static str,
    old: &'static str,
    new: &'static str,
) -> Fault {
    Fault { what, edit: Edit { file, old, new }, aim }
}

const FAULTS: &[Fault] = &[
    fault(
        "repairs 3 and 4 in the other order",
        &["superseded F8 and unfinished"],
        "Mount.antt",
        "repair_4 (repair_3 (",
        "repair_3 (repair_4 (",
    ),
    fault(
        "repairs 2 and 3 in the other order",
        &["repairs 2 and 3"],
        "Mount.antt",
        "repair_3 (repair_2_on (",
        "repair_2_on (repair_3 (",
    ),
    fault(
        "format makes its record FC",
        &["format 0"],
        "Write.antt",
        "(program 2 0x00 ∷ program 0 0x00 ∷",
        "(program 2 0xFC ∷ program 0 0x00 ∷",
    ),
    fault("a marker also at T = N", &["place"], "Place.antt", "ltb p.tail p.length", "leb p.tail p.length"),
    fault(
        "a superseded F8 is live",
        &["superseded head, marked next"],
        "Files.antt",
        "named 0xFC e || (named 0xF8 e && not (has_named 0xFC es e))",
        "named 0xFC e || named 0xF8 e",
    ),
    fault(
        "a chain at N doesn't turn",
        &["chain ends at N"],
        "Chain.antt",
        "| Next.Over ↦ read_turned N h c d",
        "| Next.Over ↦ read_straight N h c",
    ),
    fault(
        "step (d) ends a sector late",
        &["sweep erases", "START, next CLEAN"],
        "Move.antt",
        "false ↦ floor y.at ]",
        "false ↦ floor y.at + 4096 ]",
    ),
    fault(
        "step (d) ends at Y after a turn",
        &["START, next CLEAN at 0", "sweep erases to N"],
        "Move.antt",
        "elim (eqb y.at 0) [ true ↦ N |",
        "elim (eqb y.at 0) [ true ↦ 0 |",
    ),
    fault(
        "CLEAN head: the whole free run must be FF",
        &["CLEAN head, dirty free run"],
        "Reading.antt",
        "[ true ↦ tail_blank image r.place |",
        "[ true ↦ free_blank image r.place |",
    ),
    fault(
        "CLEAN head: nothing must be FF",
        &["dirty mount 5"],
        "Reading.antt",
        "[ true ↦ tail_blank image r.place |",
        "[ true ↦ true |",
    ),
    fault(
        "a name's 00 is not in the size",
        &["put 0", "mount 0"],
        "Record.antt",
        "size_of n d = 8 + up8 (n + 1) + up8 d",
        "size_of n d = 8 + up8 n + up8 d",
    ),
    fault(
        "status E0 is refused",
        &["wear record"],
        "Next.antt",
        "cond (is_reserved st) Kind.Reserved Kind.Record",
        "cond (is_reserved st) Kind.Reserved (cond (eqb st 0xE0) Kind.Bad Kind.Record)",
    ),
    fault(
        "any reserved byte is taken",
        &["reserved byte"],
        "Bytes.antt",
        "is_spare b = eqb b 0xFF",
        "is_spare b = leb b 0xFF",
    ),
    fault(
        "the commit before the data",
        &["put 4"],
        "Write.antt",
        "(data_steps (length name) content ++ commit_steps)",
        "(commit_steps ++ data_steps (length name) content)",
    ),
    fault(
        "the old file is deleted before the record is written",
        &["put replaces FC", "put replaces F8"],
        "Write.antt",
        "(shifted (address p s) (record_steps name content) ++ delete_steps old)",
        "(delete_steps old ++ shifted (address p s) (record_steps name content))",
    ),
    fault(
        "an F8 file gets F8 again",
        &["put replaces F8"],
        "Write.antt",
        "elim (is_committed e.it.status) [ true ↦ status_step e 0xF8 ∷ [] | false ↦ [] ]",
        "status_step e 0xF8 ∷ []",
    ),
    fault(
        "reserved: only 00 ends the name",
        &["reserved, name cut"],
        "Bytes.antt",
        "eqb b 0x00 || (reserved && leb 0x80 b)",
        "eqb b 0x00",
    ),
    fault(
        "the walk stops at a CLEAN at 0",
        &["CLEAN head at 0"],
        "Head.antt",
        "(eqb at 0 && clean_here s)",
        "(eqb at 1 && clean_here s)",
    ),
    fault(
        "the walk stops at a reserved record",
        &["reserved after the turn"],
        "Head.antt",
        "walked_here at s = not (is_erased (status_of s))",
        "walked_here at s = not (is_erased (status_of s)) && not (is_reserved (status_of s))",
    ),
    fault(
        "a sweep makes six moves",
        &["five moves"],
        "Sweep.antt",
        "min 5 (length r.entries)",
        "min 6 (length r.entries)",
    ),
    fault(
        "the tail may enter the head's sector",
        &["place", "put 28", "sweep 28"],
        "Reading.antt",
        "[ true ↦ floor p.head | false ↦ p.length ]",
        "[ true ↦ p.head | false ↦ p.length ]",
    ),
    fault(
        "torn: the status before byte 8",
        &["torn"],
        "Mount.antt",
        "program 7 0x00 ∷ program 8 0x00\n    ∷ status_void_steps 2 0xFF",
        "program 7 0x00\n    ∷ (status_void_steps 2 0xFF ++ (program 8 0x00 ∷ []))",
    ),
    fault(
        "a torn record by its data_len",
        &["behind torn"],
        "Next.antt",
        "[ true ↦ Next.Record 0 0 |",
        "[ true ↦ Next.Record 0 (data_len_of s) |",
    ),
    fault(
        "A5 5A stays in old data",
        &["sweep 0", "START, next CLEAN"],
        "Move.antt",
        "(is_start (low_of s) || is_clean (low_of s) || is_record (low_of s))",
        "(is_start (low_of s) || is_clean (low_of s))",
    ),
    fault(
        "Y is START before the erases",
        &["sweep erases", "START, next CLEAN"],
        "Move.antt",
        "vacated_steps starts ++ (start_steps y.at low ++ forget_steps x starts)",
        "start_steps y.at low ++ (vacated_steps starts ++ forget_steps x starts)",
    ),
    fault(
        "the old head is erased before it is cleaned",
        &["sweep erases", "START, next CLEAN", "several moves"],
        "Move.antt",
        "clean_steps (length (content_of x)) (data_at x) (content_of x) ++ vacate_steps x y low (vacated N x y)",
        "vacate_steps x y low (vacated N x y) ++ clean_steps (length (content_of x)) (data_at x) (content_of x)",
    ),
    fault(
        "an allowance equal to the need answers 4",
        &["allowance is the need"],
        "Answers.antt",
        "leb (length p.steps) k",
        "leb (suc (length p.steps)) k",
    ),
    fault(
        "the ledger takes a cut put for none",
        &["history: put cut at the commit"],
        "History.antt",
        "committed_at (commit_place name content (reading image)) n.steps v",
        "committed_at (1 + commit_place name content (reading image)) n.steps v",
    ),
    fault(
        "the commit's place without the step to F8",
        &["history: put cut before the commit"],
        "History.antt",
        "elim (is_committed e.it.status) [ true ↦ 1 | false ↦ 0 ]",
        "0",
    ),
];

/// The vectors that a fault is aimed at, spread evenly if they are many.
fn aimed<'v>(vectors: &'v [Vector], aim: &[&str]) -> Vec<(usize, &'v Vector)> {
    let all: Vec<(usize, &Vector)> =
        vectors.iter().enumerate().filter(|(_, v)| aim.iter().any(|a| v.is_of(a))).collect();
    let step = all.len().div_ceil(MOST).max(1);
    all.into_iter().step_by(step).collect()
}

/// The table of the faults; false if one is not noticed or its edit doesn't apply.
pub fn run(spec: &Path, vectors: &[Vector], jobs: usize, only: Option<&str>) -> Result<bool, String> {
    let faults: Vec<&Fault> = FAULTS
        .iter()
        .chain(INSIDE_FAULTS)
        .chain(ROOM_FAULTS)
        .chain(PLAN_FAULTS)
        .chain(SPACE_FAULTS)
        .chain(LENGTH_FAULTS)
        .chain(NAME_FAULTS)
        .chain(TRACE_FAULTS)
        .chain(VERDICT_FAULTS)
        .filter(|f| only.is_none_or(|what| f.what.starts_with(what)))
        .collect();
    let results = shared(&faults, jobs, |job, fault| {
        let chosen = aimed(vectors, fault.aim);
        let verdict = match check_edited(spec, &[fault.edit], &chosen, job) {
            Ok(differ) if differ.is_empty() => Err(format!("NOT NOTICED ({} vectors)", chosen.len())),
            Ok(differ) => Ok(format!("noticed ({} of {} vectors differ)", differ.len(), chosen.len())),
            Err(e) => Err(format!("NO VERDICT: {e}")),
        };
        println!("{:56} {}", fault.what, verdict.as_ref().unwrap_or_else(|e| e));
        verdict.is_ok()
    });
    let noticed = results.iter().filter(|&&n| n).count();
    println!("{} faults, {noticed} noticed", results.len());
    Ok(noticed == results.len() && noticed > 0)
}
