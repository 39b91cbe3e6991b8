//! Vectors as antt text.
use model::{put_room, Chain, Extent, NameFault, Place, Record, Reply, Report, Space};
use std::fmt::Write as _;
use testing::call::Call;

/// One equation: `text` computes to true.
#[derive(Clone)]
pub struct Vector {
    /// the checking function, to be unfolded
    pub function: &'static str,
    pub text: String,
    pub kind: &'static str,
    pub answer: u32,
    pub tags: Vec<&'static str>,
    pub source: &'static str,
}

impl Vector {
    /// It has this tag, source or call, or this call with its answer, the source
    /// before it or not.
    pub fn is_of(&self, what: &str) -> bool {
        let told = format!("{} {}", self.kind, self.answer);
        let from = format!("{} {told}", self.source);
        self.tags.contains(&what) || [self.kind, self.source, &told, &from].contains(&what)
    }

    pub fn describe(&self) -> String {
        format!("{} {} ({}; {})", self.kind, self.answer, self.source, self.tags.join(", "))
    }
}

/// A list of numbers.
pub fn bytes(v: &[u8]) -> String {
    let mut s = String::from("(");
    for b in v {
        write!(s, "{b} ∷ ").unwrap();
    }
    s + "[])"
}

/// A list of pieces: runs of one byte as `fill`, all else as `lit`.
pub fn pieces(v: &[u8]) -> String {
    let mut s = String::from("(");
    let mut start = 0;
    let mut i = 0;
    let lit = |s: &mut String, part: &[u8]| {
        if !part.is_empty() {
            write!(s, "lit {} ∷ ", bytes(part)).unwrap();
        }
    };
    while i < v.len() {
        let run = v[i..].iter().take_while(|&&b| b == v[i]).count();
        if run >= 6 {
            lit(&mut s, &v[start..i]);
            write!(s, "fill {run} {} ∷ ", v[i]).unwrap();
            start = i + run;
        }
        i += run;
    }
    lit(&mut s, &v[start..]);
    s + "[])"
}

/// Contents may be long; names are not.
fn content(v: &[u8]) -> String {
    if v.len() < 40 {
        bytes(v)
    } else {
        format!("(build {})", pieces(v))
    }
}

/// A call as a request. Format is none.
pub fn request(call: &Call) -> String {
    match call {
        Call::Put(name, data, _) => format!("(put {} {})", bytes(name), content(data)),
        Call::Remove(name, _) => format!("(remove {})", bytes(name)),
        Call::Sweep(_) => "sweep".into(),
        Call::Mount(_) => "mount".into(),
        Call::Get(name) => format!("(get {})", bytes(name)),
        Call::List(index) => format!("(list {index})"),
        Call::Format(_) => unreachable!("format is no request"),
    }
}

/// The allowance; one that is never used up is written short.
pub fn allowance(call: &Call) -> u64 {
    call.allowance().min(1_000_000)
}

fn report(r: &Report) -> String {
    format!("(report {} {} {})", r.head, r.tail, r.files)
}

fn space(s: &Space) -> String {
    format!("(space {} {} {} {})", s.live, s.dead, s.free, s.lost)
}

fn extent(x: &Extent) -> String {
    format!("(extent {} {})", x.offset, x.length)
}

/// The numbers of a reply, each under its name.
pub fn numbers(call: &Call, r: &Reply) -> String {
    let (answer, steps) = (r.answer, r.steps);
    if r.name != NameFault::default() {
        return format!("(refused_name {answer} {} {})", r.name.reason, r.name.place);
    }
    match call {
        Call::Mount(_) => format!("(of_mount {answer} {} {} {steps})", report(&r.report), space(&r.space)),
        Call::Put(..) => format!("(of_put {answer} {} {steps})", space(&r.space)),
        Call::Sweep(_) => format!("(of_sweep {answer} {} {} {steps})", r.moves, space(&r.space)),
        Call::Get(_) => format!("(of_get {answer} {})", extent(&r.extent)),
        Call::List(_) => format!("(of_list {answer} {} {})", extent(&r.extent), r.size),
        Call::Format(_) | Call::Remove(..) => format!("(of_write {answer} {steps})"),
    }
}

/// What a call answers and leaves, told this byte of its next step: the checking function
/// and the equation.
pub fn equation(before: &[u8], call: &Call, told: u64, reply: &Reply, after: &[u8]) -> (&'static str, String) {
    let (b, a, n) = (pieces(before), pieces(after), numbers(call, reply));
    let k = allowance(call);
    match call {
        Call::Format(_) => ("check_format", format!("check_format {b} {k} {n} {a}")),
        Call::Get(_) | Call::List(_) => {
            let part = pieces(reply.extent.of(before));
            ("check_part", format!("check_part {b} {} {n} {part}", request(call)))
        }
        _ => ("check", format!("check {b} {k} {told} {} {n} {a}", request(call))),
    }
}

/// Whether a size fits a place; if so its address, its marker and the place after it.
pub fn place_equation(p: Place, size: u64) -> String {
    let given = format!("{} {} {} {} {size}", p.head, p.tail, p.turned, p.length);
    match p.fit(size) {
        None => format!("check_place {given} false 0 false 0 false"),
        Some(q) => {
            format!("check_place {given} true {} {} {} {}", q.at, q.marker.is_some(), q.next.tail, q.next.turned)
        }
    }
}

/// Whether the room rule takes a file of this name and so many bytes.
pub fn room_equation(img: &[u8], c: &Chain, name: &[u8], d: u64) -> String {
    let entry = |x: &Record| format!("entry {} {} {} {} ∷ ", x.at, x.status, bytes(x.name(img)), x.data_len);
    let entries: String = c.records.iter().map(entry).collect();
    let taken = put_room(img, c, name, d).is_some();
    format!("check_room {} {} {} {} ({entries}[]) {} {d} {taken}", c.head, c.tail, c.turned, img.len(), bytes(name))
}

/// A file of vectors, named v followed by their numbers.
pub fn file(vectors: &[(usize, &Vector)]) -> String {
    let mut s = String::from(
        "use Rattle.std.specs.Prelude.{◌≡◌, refl, true, false, [], ◌∷◌}\n\
         use Rattle.spec.specs.History.{Request, put, remove, sweep, mount, get, list}\n\
         use Rattle.spec.specs.Numbers.{of_write, of_put, of_mount, of_sweep, of_get, of_list}\n\
         use Rattle.spec.specs.Run.{fill, lit, build, call, file, entry, report, space, extent, refused_name}\n\
         use Rattle.spec.specs.Run.{check, check_format, check_part, check_place, check_room, check_history}\n\
         use Rattle.spec.specs.Planner as Planner\n\
         use Rattle.spec.specs.Run.{lent, check_plan, check_in_turn, check_name, check_verdict, check_replay, check_watch}\n\
         use Rattle.spec.specs.Run.{length_told, check_length, check_seen}\n",
    );
    for (i, v) in vectors {
        write!(s, "\nv{i} : {} ≡ true\nunfolding {}\nv{i} = refl\n", v.text, v.function).unwrap();
    }
    s
}

#[cfg(test)]
mod tests {
    use super::*;

    #[test]
    fn pieces_of_runs_and_literals() {
        assert_eq!(pieces(&[]), "([])");
        assert_eq!(pieces(&[7, 7]), "(lit (7 ∷ 7 ∷ []) ∷ [])");
        let mut v = vec![1, 2];
        v.extend([0xFF; 6]);
        v.push(3);
        assert_eq!(pieces(&v), "(lit (1 ∷ 2 ∷ []) ∷ fill 6 255 ∷ lit (3 ∷ []) ∷ [])");
    }
}
