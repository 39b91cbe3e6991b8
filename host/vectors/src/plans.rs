//! The planner's definitions (K1, crates/spec/specs/Planner.antt): windows of plans, and
//! windows put together and carried out.
use crate::collect::{Collection, EACH, MOST_STEPS, MOST_TEXT};
use crate::emit::{numbers, pieces, request, Vector};
use model::{good_length, hand_out, planned, Handing, Plan, Refusal};
use testing::aimed::{dirty_free_run, superseded_head, tight, unfinished_last};
use testing::call::Call;
use testing::compare::{name_for, PLAN_ANSWERS};
use testing::images::{built, damage, of_history};
use testing::maker::{Contents, Maker};
use testing::rng::Rng;
use testing::ALL;

/// What a vector of a plan computes, behind the rest of the helper.
pub const HELPER: &str = "
abbrev pub lent : List ℕ → List ℕ → List ℕ → Planner.Slices
lent ks xs bs = record { kinds = ks; addresses = xs; bytes = bs }

-- a window: the direct call's numbers, how many steps were handed out, and every slot
unfoldable pub check_plan : List Piece → Planner.Writing → ℕ → Planner.Slices → Numbers → ℕ → Planner.Slices → Bool
unfolding NAMES
check_plan before c first s n handed after =
    let h = Planner.planned c (build before) first s in
    told h.numbers n && eqb h.handed handed && Basics.same h.slices.kinds after.kinds
    && Basics.same h.slices.addresses after.addresses && Basics.same h.slices.bytes after.bytes

-- windows in turn: the first k of their steps, carried out
unfoldable pub check_in_turn : List Piece → Planner.Writing → List Planner.Slices → ℕ → List Piece → Bool
unfolding NAMES
check_in_turn before c windows k after =
    let m = build before in
    Basics.same (Step.run m (take k (Planner.in_turn c m 0 windows))) (build after)
";

/// What these vectors must show.
pub const PLAN_TAGS: [&str; 12] = [
    "plan: from step 0",
    "plan: from inside",
    "plan: from the end",
    "plan: from past the end",
    "plan: slots left over",
    "plan: ends before the list",
    "plan: odd length",
    "plan: unequal slices",
    "plan: refused, with slots",
    "plan: an erase",
    "plan: a marker",
    "plan: carried out",
];
const SOURCE: &str = "plan";
/// Vectors of each call that is done, and of each of its refusals, at most, unless a tag is rare.
const DONE: u64 = 16;
const REFUSED: u64 = 4;
/// Stands in the slots before: no step has such a number.
const MARK: u32 = 70_001;
/// Draws after which a tag that is still missing stays so.
const DRAWS: u64 = 4_000;

/// The name of a planned call in the vectors' table.
fn title(call: &Call) -> &'static str {
    match call {
        Call::Put(..) => "plan put",
        Call::Remove(..) => "plan remove",
        Call::Sweep(_) => "plan sweep",
        Call::Mount(_) => "plan mount",
        other => unreachable!("{} is not planned", other.kind()),
    }
}

/// The call as the planner's definitions have it.
fn writing(call: &Call) -> String {
    let text = request(call);
    match text.strip_prefix('(') {
        Some(rest) => format!("(Planner.{rest}"),
        None => format!("Planner.{text}"),
    }
}

fn list(slots: &[u32]) -> String {
    let numbers: String = slots.iter().map(|n| format!("{n} ∷ ")).collect();
    format!("({numbers}[])")
}

fn lent(slices: &[Vec<u32>; 3]) -> String {
    let [kinds, addresses, bytes] = slices;
    format!("(lent {} {} {})", list(kinds), list(addresses), list(bytes))
}

fn marked(lengths: [usize; 3]) -> [Vec<u32>; 3] {
    lengths.map(|length| (MARK..).take(length).collect())
}

/// The image that a vector begins with, settled or not.
fn image(r: &mut Rng) -> Vec<u8> {
    let n = r.of(&[8192, 8192, 8192, 12288]);
    let maker = Maker { contents: Contents::Plain, ..Maker::short(r.of(&[5, 30])) };
    let mut img = match r.below(7) {
        0 => built(r, n, true),
        1 => superseded_head(r, n),
        2 | 3 => tight(r, n),
        _ => of_history(r, n, &maker, 25),
    };
    match r.below(8) {
        0 => damage(r, &mut img),
        1 => unfinished_last(r, &mut img),
        2 => dirty_free_run(r, &mut img),
        3 => img.truncate(r.of(&[0, 4096, 8184])),
        4 => img.fill(0xFF),
        _ => {}
    }
    img
}

fn call(r: &mut Rng, img: &[u8]) -> Call {
    let name = match img.len() {
        _ if r.chance(10) => b"a/".to_vec(),
        n if good_length(n as u64) => name_for(r, img),
        _ => b"a".to_vec(),
    };
    let length = r.of(&[0, 1, 3, 9, 24, 3000]);
    match r.below(4) {
        0 => Call::Put(name, vec![0x33; length], ALL),
        1 => Call::Remove(name, ALL),
        2 => Call::Sweep(ALL),
        _ => Call::Mount(ALL),
    }
}

/// A window of a plan: where it begins, the slices before and after, and what is given back.
struct Window {
    first: u64,
    before: [Vec<u32>; 3],
    after: [Vec<u32>; 3],
    handing: Handing,
}

impl Window {
    fn new(plan: &Result<Plan, Refusal>, first: u64, lengths: [usize; 3]) -> Window {
        let (before, mut after) = (marked(lengths), marked(lengths));
        let [kinds, addresses, bytes] = &mut after;
        let handing = hand_out(plan, first, [kinds, addresses, bytes]);
        Window { first, before, after, handing }
    }

    fn equation(&self, img: &[u8], call: &Call) -> String {
        let [before, after] = [&self.before, &self.after].map(lent);
        let (first, handed, told) = (self.first, self.handing.handed, numbers(call, &self.handing.reply));
        format!("check_plan {} {} {first} {before} {told} {handed} {after}", pieces(img), writing(call))
    }

    fn tags(&self, plan: &Result<Plan, Refusal>) -> Vec<&'static str> {
        let need = plan.as_ref().map_or(0, |p| p.steps.len() as u64);
        let lengths = self.before.each_ref().map(|s| s.len() as u64);
        let shortest = lengths.into_iter().min().unwrap_or(0);
        let handed = self.handing.handed;
        let some = handed > 0;
        let bytes = &self.after[2][..handed as usize];
        let found = [
            some && self.first == 0,
            some && self.first > 0,
            need > 0 && self.first == need,
            need > 0 && self.first > need,
            some && shortest > handed,
            some && self.first + handed < need,
            some && handed % 2 == 1,
            some && lengths != [shortest; 3],
            plan.is_err() && shortest > 0,
            self.after[0][..handed as usize].contains(&2),
            bytes.windows(3).any(|w| w == [0xFA, 0x5A, 0xF0]),
            false,
        ];
        PLAN_TAGS.into_iter().zip(found).filter(|t| t.1).map(|t| t.0).collect()
    }
}

fn lengths(r: &mut Rng) -> [usize; 3] {
    let shortest = r.of(&[0, 1, 3, 5, 8, 13, 21]);
    let mut lengths = [0; 3].map(|_: usize| shortest + r.of(&[0, 0, 1, 2]));
    lengths[r.below(3) as usize] = shortest;
    lengths
}

fn add_window(r: &mut Rng, c: &mut Collection, img: &[u8], call: &Call, plan: &Result<Plan, Refusal>) {
    let need = plan.as_ref().map_or(0, |p| p.steps.len() as u64);
    let inside = r.below(need + 1);
    let first = r.of(&[0, 0, 0, inside, inside, need, need + 1, 100_000]);
    let window = Window::new(plan, first, lengths(r));
    let (kind, answer, tags) = (title(call), window.handing.reply.answer, window.tags(plan));
    let rare = tags.iter().any(|t| c.count(&format!("tag {t}")) < EACH);
    let most = if answer == 0 { DONE } else { REFUSED };
    if !rare && c.count(&format!("{kind} {answer}")) >= most {
        return;
    }
    let text = window.equation(img, call);
    if text.len() <= MOST_TEXT {
        c.add(Vector { function: "check_plan", text, kind, answer, tags, source: SOURCE });
    }
}

/// A plan that is refused, into slots that stay as they are.
pub fn refused(c: &mut Collection, img: &[u8], call: &Call, source: &'static str) {
    let plan = planned(img, call.ask().expect("a writing call"));
    let window = Window::new(&plan, 0, [2, 3, 2]);
    let (kind, answer, tags) = (title(call), window.handing.reply.answer, window.tags(&plan));
    let text = window.equation(img, call);
    c.add(Vector { function: "check_plan", text, kind, answer, tags, source });
}

/// The first steps of windows in turn, carried out, are the direct call's at that allowance.
fn add_carried(r: &mut Rng, c: &mut Collection, img: &[u8], call: &Call, need: u64) {
    let tag = "plan: carried out";
    if need == 0 || c.count(&format!("tag {tag}")) >= DONE {
        return;
    }
    let mut windows = Vec::new();
    let mut slots = 0;
    while slots < need as usize {
        let lengths = lengths(r).map(|l| l + 4);
        slots += lengths.iter().min().expect("three");
        windows.push(lent(&marked(lengths)));
    }
    let k = if r.chance(50) { need } else { r.below(need) };
    let mut after = img.to_vec();
    call.with_allowance(k).run(&mut after);
    let windows = windows.iter().map(|w| format!("{w} ∷ ")).collect::<String>();
    let text = format!("check_in_turn {} {} ({windows}[]) {k} {}", pieces(img), writing(call), pieces(&after));
    if text.len() <= MOST_TEXT {
        let (kind, tags) = (title(call), vec![tag]);
        c.add(Vector { function: "check_in_turn", text, kind, answer: 0, tags, source: SOURCE });
    }
}

/// What the vectors of plans still lack: an answer of a call, or a tag.
pub fn lacking(c: &Collection) -> Vec<String> {
    let answers = PLAN_ANSWERS.iter().flat_map(|(kind, all)| all.iter().map(move |a| format!("plan {kind} {a}")));
    let tags = PLAN_TAGS.iter().map(|t| format!("tag {t}"));
    answers.chain(tags).filter(|what| c.count(what) < EACH).collect()
}

pub fn add(c: &mut Collection) {
    let mut r = Rng::new(4);
    for _ in 0..DRAWS {
        let img = image(&mut r);
        let call = call(&mut r, &img);
        let plan = planned(&img, call.ask().expect("a writing call"));
        let need = call.need(&img);
        if need > MOST_STEPS {
            continue;
        }
        add_window(&mut r, c, &img, &call, &plan);
        add_carried(&mut r, c, &img, &call, need);
    }
}

#[cfg(test)]
mod tests {
    use super::*;

    #[test]
    fn texts() {
        assert_eq!(writing(&Call::Sweep(ALL)), "Planner.sweep");
        assert_eq!(writing(&Call::Remove(vec![7], ALL)), "(Planner.remove (7 ∷ []))");
        assert_eq!(lent(&marked([1, 0, 2])), "(lent (70001 ∷ []) ([]) (70001 ∷ 70002 ∷ []))");
    }
}
