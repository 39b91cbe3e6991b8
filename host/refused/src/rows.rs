//! The rows of the table of cases: its proof has one line for each, in the table's order.
use crate::edit::Place;
use scratch::read;
use std::path::Path;

/// The number of the row of the table that has this text, from 1 on.
fn number(table: &str, text: &str) -> Option<usize> {
    let lines = table.lines().skip_while(|l| !l.starts_with("table =")).skip(1).map(str::trim);
    let rows = lines.scan(0, |n, line| {
        *n += (line.starts_with("row") || line.starts_with("∷ row")) as usize;
        Some((*n, line))
    });
    let with: Vec<usize> = rows.filter(|(_, line)| line.contains(text)).map(|(n, _)| n).collect();
    match with[..] {
        [n] => Some(n),
        _ => None,
    }
}

/// The line of the proof of the lemma at which this row stands.
fn line(proof: &str, lemma: &str, number: usize) -> Option<usize> {
    let begins = format!("{lemma} =");
    proof.lines().position(|l| l == begins).map(|at| at + 1 + number)
}

/// The place's row, if it names one, stands at this line of its file.
pub fn is_row(crates: &Path, place: &Place, at: usize) -> bool {
    let Some(text) = &place.row else { return true };
    let proof = crates.join(&place.file);
    let table = proof.with_file_name("Table.antt");
    let found = || line(&read(&proof).ok()?, &place.lemma, number(&read(&table).ok()?, text)?);
    found() == Some(at)
}

#[cfg(test)]
mod tests {
    use super::*;

    #[test]
    fn rows_by_their_text() {
        let table = "row = 1\n\ntable =\n    -- \"first\"\n    row a b\n    ∷ row_bytes c\n    (0 ∷ d ∷ [])\n    ∷ row b e\n    ∷ []\n";
        assert_eq!(number(table, "row a b"), Some(1));
        assert_eq!(number(table, "0 ∷ d"), Some(2));
        assert_eq!(number(table, "row b e"), Some(3));
        assert_eq!((number(table, "row"), number(table, "z")), (None, None));
        assert_eq!(line("x\nall =\n  p\n  q\n", "all", 2), Some(4));
    }
}
