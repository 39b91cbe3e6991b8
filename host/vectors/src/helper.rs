//! The test helper Run.antt: what a vector computes. It unfolds every name of the
//! definitions that can be unfolded.
use crate::{lengths, names, plans, traces, verdicts};
use scratch::read;
use std::path::Path;

const HEAD: &str = "-- What a vector computes.
use Rattle.std.specs.Prelude.{ℕ, zero, suc, ◌+◌, Bool, true, false, ◌&&◌, not, List, [], ◌∷◌, ◌++◌, length, take, drop}
use Rattle.std.specs.Prelude.{replicate, set, get_or, eqb}
use Rattle.std.specs.Int.Bits.{bit_and}
use Rattle.spec.specs.Numbers.{Numbers, Outcome, of_write, of_put, of_mount, of_sweep, of_get, of_list, refusal, part_of}
use Rattle.spec.specs.Answers.{format}
use Rattle.spec.specs.declared.Report.{Report}
use Rattle.spec.specs.declared.Extent.{Extent}
use Rattle.spec.specs.declared.Space.{Space}
use Rattle.spec.specs.Refusals.{FaultNumbers}
use Rattle.spec.specs.History.{Request, put, remove, sweep, mount, get, list, Call, outcome, replay}
use Rattle.spec.specs.History.{steps_done, steps_of, File, Ledger, ledger}
use Rattle.spec.specs.Step.{Step, program, erase, apply}
use Rattle.spec.specs.declared.Place.{Place}
use Rattle.spec.specs.Record.{Rec, Entry, size_of}
";

const BODY: &str = "
pub data Piece : Type 0 where
  fill : ℕ → ℕ → Piece
  lit : List ℕ → Piece

-- n times b, in front of s: one pass, where an append would take two
abbrev pub filled : ℕ → ℕ → List ℕ → List ℕ
filled zero b s = s
filled (suc n) b s = b ∷ filled n b s

abbrev pub build : List Piece → List ℕ
build [] = []
build (fill n b ∷ ps) = filled n b (build ps)
build (lit s ∷ ps) = s ++ build ps

-- the byte v of the next step: 256 is none
abbrev pub call : Request → ℕ → ℕ → Call
call r k v = record { request = r; allowance = k; cut_byte = v }

abbrev pub file : List ℕ → List ℕ → File
file n c = record { name = n; content = c }

abbrev pub report : ℕ → ℕ → ℕ → Report
report head tail files = record { head = head; tail = tail; files = files }

abbrev pub space : ℕ → ℕ → ℕ → ℕ → Space
space live dead free lost = record { live = live; dead = dead; free = free; lost = lost }

abbrev pub extent : ℕ → ℕ → Extent
extent offset length = record { offset = offset; length = length }

-- the numbers where a name is refused
abbrev pub name_says : ℕ → ℕ → FaultNumbers
name_says reason place = record { reason = reason; place = place }

abbrev pub refused_name : ℕ → ℕ → ℕ → Numbers
refused_name answer reason place = refusal (record { number = answer; name = name_says reason place })

-- all numbers of two replies are equal
abbrev pub told : Numbers → Numbers → Bool
told n m =
    eqb n.answer m.answer && eqb n.name.reason m.name.reason && eqb n.name.place m.name.place
    && eqb n.report.head m.report.head && eqb n.report.tail m.report.tail
    && eqb n.report.files m.report.files && eqb n.moves m.moves && eqb n.extent.offset m.extent.offset
    && eqb n.extent.length m.extent.length && eqb n.size m.size && eqb n.space.live m.space.live
    && eqb n.space.dead m.space.dead && eqb n.space.free m.space.free && eqb n.space.lost m.space.lost
    && eqb n.steps m.steps

abbrev pub right : Outcome → Numbers → List ℕ → Bool
right o n m = told o.numbers n && Basics.same o.image m

unfoldable pub check : List Piece → ℕ → ℕ → Request → Numbers → List Piece → Bool
unfolding NAMES
check before allowed v q n after = right (outcome (build before) (call q allowed v)) n (build after)

unfoldable pub check_format : List Piece → ℕ → Numbers → List Piece → Bool
unfolding NAMES
check_format before allowed n after = right (format (build before) allowed) n (build after)

-- get and list: the numbers, the image as it was, and the part
abbrev pub part_right : List ℕ → Outcome → Numbers → List ℕ → Bool
part_right m o n p = right o n m && Basics.same (part_of m o.numbers) p

unfoldable pub check_part : List Piece → Request → Numbers → List Piece → Bool
unfolding NAMES
check_part before q n part = part_right (build before) (outcome (build before) (call q 0 256)) n (build part)

-- two tests agree
abbrev pub agree : Bool → Bool → Bool
agree true b = b
agree false b = not b

abbrev pub place_right : Place → ℕ → ℕ → Bool → ℕ → Bool → Bool
place_right p s at marker tail turned =
    let q = Place.place_after p s in
    eqb (Place.address p s) at && agree (Place.with_marker p s) marker && eqb q.tail tail && agree q.turned turned

abbrev pub place : ℕ → ℕ → Bool → ℕ → Place
place h t turned n = record { head = h; tail = t; turned = turned; length = n }

-- whether a size fits a place; if so its address, its marker, and tail and turn after it
unfoldable pub check_place : ℕ → ℕ → Bool → ℕ → ℕ → Bool → ℕ → Bool → ℕ → Bool → Bool
unfolding NAMES
check_place h t turned n s fit at marker tail turned_after =
    let p = place h t turned n in
    elim (Place.fits p s) [ true ↦ fit && place_right p s at marker tail turned_after | false ↦ not fit ]

-- a record of a chain, with d data bytes
abbrev pub entry : ℕ → ℕ → List ℕ → ℕ → Entry
entry a st name d = record { at = a; it = record { low = 0; status = st; name = name; content = filled d 7 [] } }

-- whether the room rule takes a file of d data bytes behind these records
unfoldable pub check_room : ℕ → ℕ → Bool → ℕ → List Entry → List ℕ → ℕ → Bool → Bool
unfolding NAMES
check_room h t turned n es name d taken = agree (Place.room (place h t turned n) name (size_of (length name) d) es) taken

-- demand 3's clauses as tests
bits_ok : List ℕ → List Step → Bool
bits_ok m [] = true
bits_ok m (program a b ∷ ss) = eqb (bit_and b (get_or m a 0)) b && bits_ok (set m a b) ss
bits_ok m (erase a ∷ ss) = bits_ok (apply m (erase a)) ss

calls_ok : List ℕ → List Call → Bool
calls_ok m [] = true
calls_ok m (c ∷ cs) = bits_ok m (steps_done m c) && calls_ok ((outcome m c).image) cs

-- each name that list gives, with the length behind it
listed : ℕ → ℕ → List ℕ → List (List ℕ)
listed zero i m = []
listed (suc k) i m =
    let n = (outcome m (call (list i) 0 256)).numbers in
    (part_of m n ++ (n.size ∷ [])) ∷ listed k (i + 1) m

held : List ℕ → List (List ℕ) → File → Bool
held m ls f =
    let n = (outcome m (call (get f.name) 0 256)).numbers in
    eqb (length (Basics.keep (Basics.same (f.name ++ (length f.content ∷ []))) ls)) 1
    && eqb n.answer 0 && Basics.same (part_of m n) f.content

ledger_is : Ledger → Ledger → Bool
ledger_is [] [] = true
ledger_is [] (f ∷ l) = false
ledger_is (f ∷ l) [] = false
ledger_is (f ∷ l) (g ∷ k) = Basics.same f.name g.name && Basics.same f.content g.content && ledger_is l k

mounted_ok : Outcome → Ledger → List (List ℕ) → Bool
mounted_ok o l others =
    let left = o.image in
    let count = o.numbers.report.files in
    eqb o.numbers.answer 0 && eqb count (length l) && Basics.all (held left (listed count 0 left)) l
    && Basics.all (λ n. eqb ((outcome left (call (get n) 0 256)).numbers.answer) 2) others

-- a history from a formatted image: the image it leaves, the ledger, the bits, and the mount after it
unfoldable pub check_history : ℕ → List Call → Ledger → List (List ℕ) → List Piece → Bool
unfolding NAMES bits_ok calls_ok listed held ledger_is mounted_ok
check_history N cs l others after =
    let start = (format (replicate N 7) 1000).image in
    let left = replay start cs in
    Basics.same left (build after) && ledger_is (ledger start cs []) l && calls_ok start cs
    && bits_ok left (steps_of (Answers.mount_plan left)) && mounted_ok (outcome left (call mount 100000 256)) l others
";

/// The modules that Lib.antt names.
pub fn modules(specs: &Path) -> Result<Vec<String>, String> {
    let lib = read(&specs.join("Lib.antt"))?;
    Ok(lib.lines().filter_map(|l| l.strip_prefix("pub mod ")).map(|m| m.trim().to_string()).collect())
}

/// The names of a module that can be unfolded: lines `unfoldable pub NAME : ..`.
fn unfoldable(text: &str) -> impl Iterator<Item = &str> {
    text.lines().filter_map(|l| l.trim_start().strip_prefix("unfoldable pub ")?.split(" :").next())
}

/// Run.antt for these definitions.
pub fn text(specs: &Path) -> Result<String, String> {
    let mut uses = String::new();
    let mut names = Vec::new();
    for m in modules(specs)? {
        let text = read(&specs.join(format!("{m}.antt")))?;
        let before = names.len();
        names.extend(unfoldable(&text).map(|n| format!("{m}.{n}")));
        if names.len() > before {
            uses += &format!("use Rattle.spec.specs.{m} as {m}\n");
        }
    }
    let requests = [plans::HELPER, names::HELPER, lengths::HELPER, traces::HELPER, verdicts::HELPER];
    let body = [BODY, &requests.concat()].concat().replace("NAMES", &names.join(" "));
    Ok(format!("{HEAD}{uses}{body}"))
}
