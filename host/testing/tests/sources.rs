//! What a reviewer reads in the Rattle sources, held by a test: no public call of lilota asks anything of its caller, only two
//! functions store into an image, and the blank check counts every turn.
use std::fs;
use std::path::{Path, PathBuf};

fn crates() -> PathBuf {
    Path::new(env!("CARGO_MANIFEST_DIR")).join("../../crates")
}

/// The Rattle files of a crate.
fn sources(name: &str) -> Vec<(PathBuf, String)> {
    let Ok(entries) = fs::read_dir(crates().join(name).join("src")) else { return Vec::new() };
    let files = entries.map(|e| e.unwrap().path()).filter(|p| p.extension().is_some_and(|e| e == "rt"));
    files.map(|p| (p.clone(), fs::read_to_string(&p).unwrap())).collect()
}

struct Function {
    name: String,
    is_public: bool,
    /// up to the brace that opens the body
    head: String,
    body: String,
}

/// The name that this line begins to declare.
fn declared(line: &str) -> Option<&str> {
    let code = line.split("//").next()?.trim_start();
    let rest = if code.starts_with("fn ") { Some(code) } else { code.split_once(" fn ").map(|c| c.1) }?;
    rest.trim_start_matches("fn ").split(['(', '<']).next()
}

fn functions(text: &str) -> Vec<Function> {
    let mut found: Vec<Function> = Vec::new();
    let mut in_head = false;
    for line in text.lines() {
        if let Some(name) = declared(line) {
            let is_public = line.trim_start().starts_with("pub");
            found.push(Function { name: name.into(), is_public, head: String::new(), body: String::new() });
            in_head = true;
        }
        let Some(last) = found.last_mut() else { continue };
        let part = if in_head { &mut last.head } else { &mut last.body };
        part.push_str(line);
        part.push('\n');
        in_head &= !line.trim_end().ends_with('{');
    }
    found
}

/// An assignment to an element of a slice, with an operator or without, or a method of a slice that writes its elements.
fn stores(line: &str) -> bool {
    let code = line.split("//").next().unwrap_or("");
    let operators = ["|=", "&=", "^=", "+=", "-=", "*=", "/=", "%=", "<<=", ">>="];
    let writers = [".fill(", ".copy_from_slice(", ".copy_within(", ".swap(", ".reverse(", ".rotate_", ".sort", "_mut("];
    let assigned = code.match_indices(']').any(|(i, _)| {
        let behind = code[i + 1..].trim_start();
        let plain = behind.starts_with('=') && !behind.starts_with("==") && !behind.starts_with("=>");
        plain || operators.iter().any(|o| behind.starts_with(o))
    });
    assigned || writers.iter().any(|w| code.contains(w))
}

#[test]
fn no_public_call_requires_anything() {
    let mut calls = 0;
    // a module of its own crate alone
    let inner = |path: &Path| path.ends_with("replay/src/entry.rt");
    let public = ["calls", "plans", "replay", "lilota"].into_iter().flat_map(sources);
    for (path, text) in public.filter(|(path, _)| !inner(path)) {
        for f in functions(&text).iter().filter(|f| f.is_public) {
            assert!(!f.head.contains("requires"), "{}: {} has a requires", path.display(), f.name);
            assert!(f.head.contains("ensures"), "{}: {} says nothing of its answer", path.display(), f.name);
            calls += 1;
        }
    }
    assert!(calls >= 16, "{calls} public functions");
}

/// "nothing else writes the image": of the functions that are lent bytes to write, two store a byte.
#[test]
fn two_functions_store_into_an_image() {
    let mut storing = Vec::new();
    for name in fs::read_dir(crates()).unwrap().map(|e| e.unwrap().file_name().into_string().unwrap()) {
        for (_, text) in sources(&name) {
            let writing = functions(&text).into_iter().filter(|f| f.head.contains("&mut [u8]"));
            storing.extend(writing.filter(|f| f.body.lines().any(stores)).map(|f| format!("{name}::{}", f.name)));
        }
    }
    assert_eq!(storing, ["flash::program", "flash::erase"]);
}

/// What a line of code calls, and the loops that it begins.
fn calls(line: &str) -> Vec<&str> {
    let code = line.split("//").next().unwrap_or("");
    let word = |i: usize| code[..i].rsplit(|c: char| !c.is_alphanumeric() && c != '_').next().unwrap_or("");
    let called = code.match_indices('(').map(|(i, _)| word(i)).filter(|w| !w.is_empty());
    called.chain(["while ", "loop ", "for "].into_iter().filter(|l| code.contains(l))).collect()
}

/// Document 02, K2: "its loops' turns, counted in the loops". The functions of the blank check call each other, and of the library what has
/// no loop; three of them have a loop each, and these count their turns. No two parts are compared, which the library does by a loop.
#[test]
fn the_blank_check_has_three_loops() {
    let text = fs::read_to_string(crates().join("flash/src/lib.rt")).unwrap();
    let counting = ["blank_lines", "blank_words", "blank_bytes"];
    let others = ["word_at", "two_words", "four_words", "eight_words", "first_written", "is_blank"];
    let library = ["from_le_bytes", "try_into", "unwrap", "len", "derive"];
    let check: Vec<_> = functions(&text).into_iter().filter(|f| counting.iter().chain(&others).any(|name| f.name == *name)).collect();
    assert_eq!(check.len(), 9, "the blank check has other functions");
    for f in &check {
        let called: Vec<_> = f.body.lines().flat_map(calls).collect();
        let is_loop = |c: &&str| ["while ", "loop ", "for "].contains(c);
        assert_eq!(called.iter().filter(|c| is_loop(c)).count(), usize::from(counting.contains(&f.name.as_str())), "{}", f.name);
        for c in called.iter().filter(|c| !is_loop(c)) {
            assert!(counting.contains(c) || others.contains(c) || library.contains(c), "{} calls {c}", f.name);
        }
        assert_eq!(f.body.matches("..").count(), usize::from(f.name == "word_at"), "{} takes a part", f.name);
    }
    assert_eq!(calls("    for w in words.iter().fold(u64::MAX, f) { // x(y)"), ["iter", "fold", "for "]);
}

#[test]
fn the_source_is_taken_apart() {
    let text = "// fn no(\npub fn a(\n    x: &mut [u8],\n) -> u8\n    requires { p }\n{\n    x[0] = 1;\n}\n\n\
                fn b<'a>(x: &'a [u8]) -> u8 {\n    x[0] == 1\n}\n";
    let found = functions(text);
    assert_eq!(found.iter().map(|f| (f.name.as_str(), f.is_public)).collect::<Vec<_>>(), [("a", true), ("b", false)]);
    assert!(found[0].head.contains("requires") && found[0].body.lines().any(stores));
    assert!(!found[1].body.lines().any(stores));
    for store in ["x[a..b].fill(0xFF);", "x[i] |= b;", "x[i] <<= 1;", "x[..4].copy_from_slice(y);", "for b in x.iter_mut() {"] {
        assert!(stores(store), "{store}");
    }
    for look in ["if x[i] <= b {", "[.., last] => last,", "x[i] != b", "// x[i] = b;"] {
        assert!(!stores(look), "{look}");
    }
}
