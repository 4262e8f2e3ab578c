//! The small files of a folder as computed tables of the crate `model`.
//!
//! Each file stands there with what is printed of it: the summary of each fact, then the answer. The tables are short,
//! since each is shown by one computation. The files of a command stand in tables of their own, with its answer alone.

use std::fmt::Write;
use std::fs;
use std::io;
use std::path::Path;

use crate::Command;

/// The most bytes of a small file.
const SMALL: usize = 2000;

/// The most files of a table, and the most bytes of its files.
const FILES: usize = 20;
const BYTES: usize = 1500;

/// The columns of a line of the tables.
const WIDTH: usize = 120;

/// A file and what is printed of it.
struct Small {
    name: String,
    /// The position, where the command has one.
    position: Option<usize>,
    file: Vec<u8>,
    printed: Vec<u8>,
}

/// The module of the tables: every small `.in` of a folder with its `.out`, by name. The cases of document 01, whose names
/// begin with F and a digit, are left out: `Cases.antt` has them; and those of a command (`.args`).
pub fn module(folder: &Path) -> io::Result<String> {
    let files = small_files(folder, None)?;
    let mut out = String::from(HEAD);
    for (index, table) in tables(&files).into_iter().enumerate() {
        write_table(&mut out, index + 1, table).map_err(io::Error::other)?;
    }
    Ok(out)
}

/// The entries of a table of the files of a command, by its word: every small `.in` of a folder whose `.args` has it.
pub fn entries(folder: &Path, word: &str) -> io::Result<String> {
    let mut out = String::new();
    for (index, small) in small_files(folder, Some(word))?.iter().enumerate() {
        write_entry(&mut out, index == 0, small).map_err(io::Error::other)?;
    }
    out.push_str("    ∷ []\n");
    Ok(out)
}

const HEAD: &str = "\
-- The small files of compare/cases with their summaries and answers, shown by computation as F1 to F10 are.
-- Written by `tables` of compare/: compare/README.md says how.
use mathlib.Core.Path.{refl}
use mathlib.Core.List.{List, [], ◌∷◌}
use Rattle.model.proofs.Printing.{Small, prints, AllPrint}
";

/// The small files of a folder that have no command, with their summaries, or those of a command, by name.
fn small_files(folder: &Path, word: Option<&str>) -> io::Result<Vec<Small>> {
    let mut files = Vec::new();
    for entry in fs::read_dir(folder)? {
        let path = entry?.path();
        let (Some(name), Some("in")) = (
            path.file_stem().and_then(|stem| stem.to_str()),
            path.extension().and_then(|extension| extension.to_str()),
        ) else {
            continue;
        };
        let file = fs::read(&path)?;
        let command = command(&path)?;
        let of_the_document = matches!(name.as_bytes(), [b'F', b'0'..=b'9', ..]);
        if file.len() > SMALL || of_the_document || command.map(Command::word) != word {
            continue;
        }
        let mut printed = Vec::new();
        if command.is_none() {
            let summaries = crate::summaries(&file).unwrap_or_default();
            printed.extend(summaries.iter().flat_map(|summary| summary.to_string().into_bytes()));
        }
        printed.extend(fs::read(path.with_extension("out"))?);
        let position = match command {
            Some(Command::Why(position)) => Some(position),
            _ => None,
        };
        files.push(Small { name: name.to_owned(), position, file, printed });
    }
    files.sort_by(|left, right| left.name.cmp(&right.name));
    Ok(files)
}

/// The command beside an `.in`, if there is one.
pub fn command(path: &Path) -> io::Result<Option<Command>> {
    let path = path.with_extension("args");
    if !path.exists() {
        return Ok(None);
    }
    fs::read_to_string(path)?.parse().map(Some).map_err(io::Error::other)
}

/// The files in short runs.
fn tables(files: &[Small]) -> Vec<&[Small]> {
    let (mut tables, mut start, mut bytes) = (Vec::new(), 0, 0);
    for (index, small) in files.iter().enumerate() {
        if index - start == FILES || (index > start && bytes + small.file.len() > BYTES) {
            tables.push(&files[start..index]);
            (start, bytes) = (index, 0);
        }
        bytes += small.file.len();
    }
    tables.push(&files[start..]);
    tables
}

fn write_table(out: &mut String, number: usize, table: &[Small]) -> std::fmt::Result {
    let (first, last) = (&table[0].name, &table[table.len() - 1].name);
    if first == last {
        writeln!(out, "\n-- {first}")?;
    } else {
        writeln!(out, "\n-- {first} to {last}")?;
    }
    writeln!(out, "files_{number} : List Small\nfiles_{number} =")?;
    for (index, small) in table.iter().enumerate() {
        write_entry(out, index == 0, small)?;
    }
    writeln!(out, "    ∷ []\n\n-- a wrong one is named in the error\npass_{number} : AllPrint files_{number}")?;
    let shown = table.iter().rev().fold("tt".to_owned(), |rest, _| format!("(refl, {rest})"));
    writeln!(out, "unfolding prints files_{number}\npass_{number} = {shown}")
}

fn write_entry(out: &mut String, is_first: bool, small: &Small) -> std::fmt::Result {
    let cons = if is_first { "" } else { "∷ " };
    writeln!(out, "    {cons}record {{\n      name = \"{}\";", small.name)?;
    if let Some(position) = small.position {
        writeln!(out, "      position = {position};")?;
    }
    write_text(out, "file", &small.file)?;
    write_text(out, "printed", &small.printed)?;
    writeln!(out, "    }}")
}

/// A field of a small file: its text in pieces, one on a line where it has several.
fn write_text(out: &mut String, field: &str, text: &[u8]) -> std::fmt::Result {
    match pieces(text).as_slice() {
        [] => writeln!(out, "      {field} = [];"),
        [piece] => writeln!(out, "      {field} = \"{piece}\" ∷ [];"),
        [piece, more @ ..] => {
            write!(out, "      {field} = \"{piece}\"")?;
            for piece in more {
                write!(out, "\n          ∷ \"{piece}\"")?;
            }
            writeln!(out, "\n          ∷ [];")
        }
    }
}

/// A text as pieces of string literals: as many whole lines as stand on a line of the tables.
fn pieces(text: &[u8]) -> Vec<String> {
    let mut pieces: Vec<String> = Vec::new();
    for line in text.split_inclusive(|&byte| byte == b'\n') {
        let line: String = line.iter().map(|&byte| literal(byte)).collect();
        match pieces.last_mut() {
            Some(piece) if piece.len() + line.len() + 16 <= WIDTH => piece.push_str(&line),
            _ => pieces.push(line),
        }
    }
    pieces
}

/// A byte in a string literal.
fn literal(byte: u8) -> String {
    match byte {
        b'\n' => "\\n".to_owned(),
        b'\r' => "\\r".to_owned(),
        b'\t' => "\\t".to_owned(),
        b'\0' => "\\0".to_owned(),
        b'"' | b'\\' => format!("\\{}", char::from(byte)),
        b' '..=b'~' => char::from(byte).to_string(),
        _ => format!("\\u{{{byte:x}}}"),
    }
}

#[cfg(test)]
mod tests {
    use super::*;

    #[test]
    fn the_tables_of_the_model_are_these() {
        let folder = Path::new(env!("CARGO_MANIFEST_DIR"));
        let written = fs::read_to_string(folder.join("../crates/model/proofs/Small.antt")).unwrap();
        assert!(written == module(&folder.join("cases")).unwrap(), "write crates/model/proofs/Small.antt again");
    }

    #[test]
    fn files_of_a_command() {
        let folder = Path::new(env!("CARGO_MANIFEST_DIR")).join("cases");
        for word in ["why", "sweep", "order"] {
            let entries = entries(&folder, word).unwrap();
            assert!(entries.starts_with(&format!("    record {{\n      name = \"{word}-")), "{entries}");
            assert_eq!(entries.contains("position = 2;"), word == "why");
        }
    }

    #[test]
    fn literals() {
        assert_eq!(pieces(b"a\n\"\\\x80\r\n"), ["a\\n\\\"\\\\\\u{80}\\r\\n"]);
        assert_eq!(pieces(&[b'x'; 200]).len(), 1);
        assert_eq!(pieces(b"").len(), 0);
    }
}
