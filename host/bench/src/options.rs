//! The words of the command line.
use crate::cases::Kind;
use crate::images::Fill;

pub const USAGE: &str = "bench [--quick] [--papers COMMIT] [--cold | --colliding | --names | --stack | --plans]
      [--size 64K|1M|16M] [--files N] [--fill empty|full] [--call CALL]
  --quick       fewer and shorter runs
  --papers      measures everything and writes docs/BENCHMARKS-ROWS.md and the tables of docs/BENCHMARKS.md; COMMIT is
                the one that the library was built of
  --cold        times with cold caches, in place of warm ones
  --colliding   times on images of colliding names
  --names       mounts of images with 2,048 files, over many sets of names
  --stack       the stack that each call needs
  --plans       a sweep planned in windows (K1) against the direct one
  the others keep those rows alone; several go with a comma between, as in --size 64K,1M
  CALL: mount, get, list, put, put-long, remove, sweep, mount-put, mount-move, mount-clean";

pub const SIZES: [(&str, usize); 3] = [("64K", 64 << 10), ("1M", 1 << 20), ("16M", 16 << 20)];
pub const FILES: [usize; 4] = [1, 16, 256, 2048];
pub const FILLS: [Fill; 2] = [Fill::Empty, Fill::Full];

/// What is measured.
#[derive(Clone, Copy, PartialEq, Eq, Debug)]
pub enum What {
    Warm,
    Cold,
    Colliding,
    Names,
    Stack,
    Plans,
}

/// Which rows are measured, and how.
#[derive(Debug)]
pub struct Options {
    pub quick: bool,
    /// the library's commit, if the papers are to be written
    pub papers: Option<String>,
    pub what: What,
    pub sizes: Vec<usize>,
    pub files: Vec<usize>,
    pub fills: Vec<Fill>,
    pub calls: Vec<Kind>,
}

impl Options {
    /// Everything, or what is wrong with the words.
    pub fn parse(words: impl Iterator<Item = String>) -> Result<Options, String> {
        let mut o = Options {
            quick: false,
            papers: None,
            what: What::Warm,
            sizes: SIZES.map(|(_, n)| n).to_vec(),
            files: FILES.to_vec(),
            fills: FILLS.to_vec(),
            calls: Kind::ALL.to_vec(),
        };
        let mut words = words;
        while let Some(word) = words.next() {
            let mut list = || words.next().ok_or(format!("{word}: a value is missing"));
            match &word[..] {
                "--quick" => o.quick = true,
                "--papers" => o.papers = Some(list()?),
                "--cold" => o.what = What::Cold,
                "--colliding" => o.what = What::Colliding,
                "--names" => o.what = What::Names,
                "--stack" => o.what = What::Stack,
                "--plans" => o.what = What::Plans,
                "--size" => o.sizes = each(&list()?, size)?,
                "--files" => o.files = each(&list()?, |x| x.parse().ok().filter(|&files| files > 0))?,
                "--fill" => o.fills = each(&list()?, |x| FILLS.into_iter().find(|f| f.word() == x))?,
                "--call" => o.calls = each(&list()?, |x| Kind::ALL.into_iter().find(|k| k.word() == x))?,
                _ => return Err(format!("{word}: not known")),
            }
        }
        Ok(o)
    }
}

fn size(word: &str) -> Option<usize> {
    SIZES.into_iter().find(|(w, _)| *w == word).map(|(_, n)| n)
}

fn each<T>(list: &str, one: impl Fn(&str) -> Option<T>) -> Result<Vec<T>, String> {
    list.split(',').map(|word| one(word).ok_or(format!("{word}: not known"))).collect()
}

#[cfg(test)]
mod tests {
    use super::*;

    fn parsed(words: &str) -> Result<Options, String> {
        Options::parse(words.split_whitespace().map(String::from))
    }

    #[test]
    fn words() {
        let all = parsed("").unwrap();
        assert_eq!((all.sizes.len(), all.files.len(), all.calls.len(), all.quick), (3, 4, 10, false));
        assert_eq!((all.what, all.papers), (What::Warm, None));
        let some = parsed("--quick --size 64K,16M --call mount-put,get --fill full --files 3").unwrap();
        assert_eq!((some.quick, some.sizes, some.files), (true, vec![64 << 10, 16 << 20], vec![3]));
        assert_eq!((some.calls, some.fills), (vec![Kind::MountPut, Kind::Get], vec![Fill::Full]));
        assert_eq!(parsed("--plans --size 16M").unwrap().what, What::Plans);
        let cold = parsed("--cold --papers f11801c").unwrap();
        assert_eq!((cold.what, cold.papers.as_deref()), (What::Cold, Some("f11801c")));
    }

    #[test]
    fn wrong_words() {
        for words in ["--size", "--size 2M", "--call fly", "--files 0", "quick", "--papers"] {
            assert!(parsed(words).is_err(), "{words}");
        }
    }
}
