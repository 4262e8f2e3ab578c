//! The table.

use std::fmt::Write;

use crate::files::Sort;
use crate::instructions::Instructions;
use crate::timing::Times;

/// What was found of a file.
pub struct Row {
    pub name: String,
    pub sort: Sort,
    pub bytes: usize,
    pub answer: String,
    pub times: Times,
    pub instructions: Option<Instructions>,
}

const HEAD: &str = "\
| file | bytes | answer | library, µs | independent, µs | ratio | library, instructions | independent, instructions | ratio |
|---|---:|---|---:|---:|---:|---:|---:|---:|
";

/// The rows as a table. A ratio above 1 says that the library is faster.
pub fn markdown(rows: &[Row]) -> String {
    let mut text = HEAD.to_owned();
    let mut sort = None;
    for row in rows {
        if sort.replace(row.sort) != Some(row.sort) {
            let title = match row.sort {
                Sort::Export => "files that look like exports",
                Sort::Real => "queries of real verifiers",
                Sort::Ugly => "ugly files",
                Sort::Further => "the further calls",
            };
            let _ = writeln!(text, "| **{title}** | | | | | | | | |");
        }
        let Times { library, independent } = row.times;
        let counts = row.instructions.map_or("| | ".to_owned(), |Instructions { library, independent }| {
            let ratio = independent as f64 / library as f64;
            format!("{} | {} | {ratio:.2}", thousands(library), thousands(independent))
        });
        let _ = writeln!(
            text,
            "| {} | {} | {} | {library:.1} | {independent:.1} | {:.2} | {counts} |",
            row.name,
            thousands(row.bytes as u64),
            row.answer,
            independent / library,
        );
    }
    text
}

/// A number with commas.
fn thousands(number: u64) -> String {
    let digits = number.to_string();
    let mut text = String::new();
    for (index, digit) in digits.chars().enumerate() {
        if index > 0 && (digits.len() - index).is_multiple_of(3) {
            text.push(',');
        }
        text.push(digit);
    }
    text
}

const START: &str = "<!-- table -->\n";
const END: &str = "<!-- end of table -->\n";

/// A document with the table in its place, or `None` if it has none.
pub fn put(document: &str, table: &str) -> Option<String> {
    let (before, rest) = document.split_once(START)?;
    let (_, after) = rest.split_once(END)?;
    Some(format!("{before}{START}\n{table}\n{END}{after}"))
}

#[cfg(test)]
mod tests {
    use super::*;

    #[test]
    fn numbers() {
        assert_eq!(thousands(0), "0");
        assert_eq!(thousands(999), "999");
        assert_eq!(thousands(1_000), "1,000");
        assert_eq!(thousands(12_345_678), "12,345,678");
    }

    #[test]
    fn the_table_is_put_in_its_place() {
        let document = format!("a\n{START}old\n{END}b\n");
        let once = put(&document, "new").unwrap();
        assert_eq!(once, format!("a\n{START}\nnew\n{END}b\n"));
        assert_eq!(put(&once, "new"), Some(once.clone()));
        assert_eq!(put("a\nb\n", "new"), None);
    }
}
