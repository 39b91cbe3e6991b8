//! Writes what was measured into docs: all of BENCHMARKS-ROWS.md, and the sections of BENCHMARKS.md between the lines
//! `<!-- bench: NAME -->` and `<!-- end -->`.
use std::path::PathBuf;

fn docs(name: &str) -> PathBuf {
    PathBuf::from(concat!(env!("CARGO_MANIFEST_DIR"), "/../../docs")).join(name)
}

fn begin(name: &str) -> String {
    format!("<!-- bench: {name} -->\n")
}

const END: &str = "<!-- end -->";

/// The text with another section of this name.
fn replaced(text: &str, name: &str, section: &str) -> Option<String> {
    let (before, rest) = text.split_once(&begin(name))?;
    let (_, after) = rest.split_once(END)?;
    Some(format!("{before}{}{section}{END}{after}", begin(name)))
}

/// All sections must be there.
pub fn write(rows: &str, sections: &[(&str, String)]) {
    let path = docs("BENCHMARKS.md");
    let mut text = std::fs::read_to_string(&path).unwrap_or_else(|e| panic!("{}: {e}", path.display()));
    for (name, section) in sections {
        text = replaced(&text, name, section).unwrap_or_else(|| panic!("{}: no section {name}", path.display()));
    }
    std::fs::write(&path, text).expect("the paper is written");
    std::fs::write(docs("BENCHMARKS-ROWS.md"), rows).expect("the rows are written");
}

#[cfg(test)]
mod tests {
    use super::*;

    #[test]
    fn a_section() {
        let text = "a\n<!-- bench: x -->\nold\n<!-- end -->\nb\n<!-- bench: y -->\n<!-- end -->\n";
        let expected = "a\n<!-- bench: x -->\nnew\n<!-- end -->\nb\n<!-- bench: y -->\n<!-- end -->\n";
        assert_eq!(replaced(text, "x", "new\n").as_deref(), Some(expected));
        assert_eq!(replaced(text, "z", "new\n"), None);
    }

    /// The paper has the sections that are written.
    #[test]
    fn the_paper() {
        let text = std::fs::read_to_string(docs("BENCHMARKS.md")).expect("the paper");
        for name in crate::SECTIONS {
            assert!(replaced(&text, name, "").is_some(), "no section {name}");
        }
    }
}
