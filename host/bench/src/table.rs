//! The tables in Markdown.
use crate::cases::{Kind, Shape};
use crate::colliding::Names;
use crate::timing::{Spread, Times};

/// The most that a call may take, in times of the C and in scans (docs/DECISIONS.md, 39).
pub const AIM: f64 = 1.3;

/// What was measured of a call on an image.
pub struct Row {
    pub kind: Kind,
    pub shape: Shape,
    pub times: Times,
}

/// What was measured on an image of names that collide.
pub struct CollidingRow {
    pub kind: Kind,
    pub names: Names,
    pub files: usize,
    pub times: Times,
}

/// The stack of a call, in bytes.
pub struct StackRow {
    pub kind: Kind,
    pub library: usize,
    pub baseline: usize,
}

/// A size as people write it.
pub fn size(n: usize) -> String {
    if n < 1 << 20 {
        format!("{} KiB", n >> 10)
    } else {
        format!("{} MiB", n >> 20)
    }
}

/// A number with about three digits that count.
pub fn number(x: f64) -> String {
    match x {
        x if x < 10.0 => format!("{x:.2}"),
        x if x < 100.0 => format!("{x:.1}"),
        x => format!("{x:.0}"),
    }
}

pub fn micros(s: Spread) -> String {
    number(s.median * 1e6)
}

pub fn spread(s: Spread) -> String {
    format!("{} ({} to {})", number(s.median), number(s.least), number(s.most))
}

/// A table of these columns; those behind the first `words` are numbers.
pub fn table(columns: &[&str], words: usize, rows: impl Iterator<Item = Vec<String>>) -> String {
    let line = |cells: &[String]| format!("| {} |\n", cells.join(" | "));
    let mut text = line(&columns.iter().map(|c| c.to_string()).collect::<Vec<_>>());
    let under = (0..columns.len()).map(|i| if i < words { "---" } else { "---:" });
    text += &format!("|{}|\n", under.collect::<Vec<_>>().join("|"));
    rows.for_each(|row| text += &line(&row));
    text
}

const TIMES: [&str; 5] = ["library, µs", "plain C, µs", "scan, µs", "library / plain C", "library / scan"];

fn times(t: &Times) -> Vec<String> {
    vec![micros(t.library), micros(t.baseline), micros(t.scan), spread(t.to_baseline), spread(t.to_scan)]
}

/// A table of these rows under a heading.
pub fn section<'a>(title: &str, rows: impl Iterator<Item = &'a Row>) -> String {
    let columns = [&["image", "filled", "files"][..], &TIMES].concat();
    let line = |Row { shape, times: t, .. }: &Row| {
        let image = vec![size(shape.n), shape.fill.word().to_string(), shape.files.to_string()];
        [image, times(t)].concat()
    };
    format!("\n## {title}\n\n{}", table(&columns, 2, rows.map(line)))
}

/// All rows, a table to each call.
pub fn rows(rows: &[Row]) -> String {
    let mut kinds: Vec<Kind> = rows.iter().map(|row| row.kind).collect();
    kinds.dedup();
    kinds.into_iter().map(|kind| section(kind.title(), rows.iter().filter(|row| row.kind == kind))).collect()
}

/// For each call and size: the least and the most of the rows' medians, and the rows over the aim.
pub fn summary(rows: &[Row]) -> String {
    let mut groups: Vec<(Kind, usize)> = rows.iter().map(|row| (row.kind, row.shape.n)).collect();
    groups.dedup();
    let line = |(kind, n)| {
        let some: Vec<&Times> =
            rows.iter().filter(|row| (row.kind, row.shape.n) == (kind, n)).map(|row| &row.times).collect();
        let range = |ratio: fn(&Times) -> f64| {
            let ratios = some.iter().map(|t| ratio(t));
            let (least, most) = ratios.fold((f64::MAX, 0.0f64), |(l, m), x| (l.min(x), m.max(x)));
            format!("{} to {}", number(least), number(most))
        };
        let over = some.iter().filter(|t| t.to_baseline.median > AIM).count();
        vec![
            kind.title().to_string(),
            size(n),
            range(|t| t.to_baseline.median),
            format!("{over} of {}", some.len()),
            range(|t| t.to_scan.median),
            range(|t| t.baseline.median / t.scan.median),
        ]
    };
    let columns = ["call", "image", "library / plain C", "over 1.3", "library / scan", "plain C / scan"];
    table(&columns, 2, groups.into_iter().map(line))
}

/// Mount and get on the largest image: both ratios against the aim.
pub fn aim(rows: &[Row]) -> String {
    let columns = ["call", "filled", "files", "library / plain C", "at most 1.3", "library / scan", "at most 1.3"];
    let met = |s: Spread| if s.median <= AIM { "yes" } else { "no" }.to_string();
    let largest = rows.iter().map(|row| row.shape.n).max().unwrap_or(0);
    let some = rows.iter().filter(|row| matches!(row.kind, Kind::Mount | Kind::Get) && row.shape.n == largest);
    let line = |Row { kind, shape, times: t }: &Row| {
        let (c, scan) = (t.to_baseline, t.to_scan);
        let call = vec![kind.word().to_string(), shape.fill.word().to_string(), shape.files.to_string()];
        [call, vec![spread(c), met(c), spread(scan), met(scan)]].concat()
    };
    table(&columns, 2, some.map(line))
}

pub fn colliding(rows: &[CollidingRow]) -> String {
    let columns = [&["call", "names", "files"][..], &TIMES[..2], &TIMES[3..]].concat();
    let line = |row: &CollidingRow| {
        let t = &row.times;
        let call = vec![row.kind.word().to_string(), row.names.title().to_string(), row.files.to_string()];
        [call, vec![micros(t.library), micros(t.baseline), spread(t.to_baseline), spread(t.to_scan)]].concat()
    };
    table(&columns, 2, rows.iter().map(line))
}

pub fn stack(rows: &[StackRow]) -> String {
    let line = |row: &StackRow| vec![row.kind.title().to_string(), row.library.to_string(), row.baseline.to_string()];
    table(&["call", "library", "plain C"], 1, rows.iter().map(line))
}

#[cfg(test)]
mod tests {
    use super::*;
    use crate::images::Fill;

    fn row(files: usize, to_baseline: f64) -> Row {
        let all = |x| Spread { median: x, least: x - 1.0, most: x + 100.0 };
        let times = Times {
            library: all(3e-6),
            baseline: all(2e-6),
            scan: all(4e-6),
            to_baseline: all(to_baseline),
            to_scan: all(1.25),
        };
        Row { kind: Kind::Get, shape: Shape { n: 1 << 20, files, fill: Fill::Full }, times }
    }

    #[test]
    fn lines() {
        let some = [row(1, 1.3), row(16, 1.5)];
        let text = rows(&some);
        assert!(text.contains("\n## get of the last file\n\n| image | filled | files | library, µs |"), "{text}");
        assert!(text.contains("\n|---|---|---:|---:|---:|---:|---:|---:|\n"), "{text}");
        let line = "| 1 MiB | full | 16 | 3.00 | 2.00 | 4.00 | 1.50 (0.50 to 102) | 1.25 (0.25 to 101) |\n";
        assert!(text.ends_with(line), "{text}");
        let line = "| get of the last file | 1 MiB | 1.30 to 1.50 | 1 of 2 | 1.25 to 1.25 | 0.50 to 0.50 |\n";
        assert!(summary(&some).ends_with(line), "{}", summary(&some));
        let line = "| get | full | 16 | 1.50 (0.50 to 102) | no | 1.25 (0.25 to 101) | yes |\n";
        assert!(aim(&some).ends_with(line), "{}", aim(&some));
    }
}
