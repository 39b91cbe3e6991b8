//! A scratch copy of Rattle crates, in which an edited definition is tried.
use std::fs;
use std::path::{Path, PathBuf};

/// A folder that goes when it is dropped.
pub struct Folder(pub PathBuf);

impl Folder {
    /// Empty, in the system's folder for such things; the name is this process's own.
    pub fn new(name: &str) -> Result<Folder, String> {
        let path = std::env::temp_dir().join(format!("{name}-{}", std::process::id()));
        let _ = fs::remove_dir_all(&path);
        make(&path)?;
        Ok(Folder(path))
    }
}

impl Drop for Folder {
    fn drop(&mut self) {
        let _ = fs::remove_dir_all(&self.0);
    }
}

fn told<T>(path: &Path, done: std::io::Result<T>) -> Result<T, String> {
    done.map_err(|e| format!("{}: {e}", path.display()))
}

pub fn make(path: &Path) -> Result<(), String> {
    told(path, fs::create_dir_all(path))
}

pub fn read(path: &Path) -> Result<String, String> {
    told(path, fs::read_to_string(path))
}

pub fn write(path: &Path, text: &str) -> Result<(), String> {
    told(path, fs::write(path, text))
}

/// A folder with all that is in it.
pub fn copy(from: &Path, to: &Path) -> Result<(), String> {
    make(to)?;
    for entry in told(from, fs::read_dir(from))? {
        let path = told(from, entry)?.path();
        let target = to.join(path.file_name().expect("an entry has a name"));
        if path.is_dir() {
            copy(&path, &target)?;
        } else {
            told(&path, fs::copy(&path, &target))?;
        }
    }
    Ok(())
}

/// The text with new in the place of old, which must stand there once.
pub fn replaced(text: &str, old: &str, new: &str) -> Result<String, String> {
    match text.matches(old).count() {
        1 => Ok(text.replace(old, new)),
        n => Err(format!("the text `{old}` stands there {n} times")),
    }
}

/// The enums and structs of a Rattle source, which definitions use; its functions stay out, whose proofs would
/// refuse a wrong definition before the one that is asked does.
pub fn types(source: &str) -> String {
    let mut inside = false;
    let mut text = String::new();
    for line in source.lines() {
        inside |= line.starts_with("pub enum ") || line.starts_with("pub struct ");
        if inside {
            text += line;
            text += "\n";
        }
        inside &= line != "}";
    }
    text
}

#[cfg(test)]
mod tests {
    use super::*;

    #[test]
    fn types_alone() {
        let source = "use x;\npub struct P {\n    pub a: u8,\n}\n\nimpl P {\n    fn f() {}\n}\npub fn g() {\n}\npub enum E {\n    A,\n}\n";
        assert_eq!(types(source), "pub struct P {\n    pub a: u8,\n}\npub enum E {\n    A,\n}\n");
    }

    #[test]
    fn replaced_once() {
        assert_eq!(replaced("a b", "b", "c"), Ok("a c".to_string()));
        assert!(replaced("a b b", "b", "c").is_err());
        assert!(replaced("a", "b", "c").is_err());
    }
}
