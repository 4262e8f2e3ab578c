//! Every `X.in` of a folder against its `X.out` and, where there is one, its `X.sum`; `X.args` is the command, where it
//! is not the plain one.

use std::fs;
use std::path::Path;

use compare::Command;

/// How two answers compare.
#[derive(PartialEq)]
enum Verdict {
    Same,
    /// Definitions or declarations of a list stand in another order.
    OrderOnly,
    /// The one is 6 and the other says what was full, at the same place.
    NumberOnly,
    Different,
}

fn compare(file: &[u8], expected: &str, actual: &str) -> Verdict {
    if expected == actual {
        return Verdict::Same;
    }
    if let Some(place) = expected.strip_prefix("refused,6,") {
        let full = ["10", "11", "12"].map(|number| format!("refused,{number},{place}"));
        return if full.iter().any(|full| full == actual) { Verdict::NumberOnly } else { Verdict::Different };
    }
    let groups = |list: &[&str]| {
        let mut lines: Vec<(u8, String)> = Vec::new();
        for &line in list {
            let number = line.split(',').nth(1).and_then(|number| number.parse::<usize>().ok());
            let record = match number {
                Some(number) if line.starts_with("kept,") => file.split(|&byte| byte == b'\n').nth(number - 1),
                _ => None,
            };
            let group = match record {
                Some(record) if record.starts_with(b"def,") => 1,
                Some(record) if record.starts_with(b"fun,") => 2,
                Some(_) => 0,
                None => 3,
            };
            lines.push((group, line.to_owned()));
        }
        let in_groups = lines.windows(2).all(|pair| pair[0].0 <= pair[1].0);
        let mut free: Vec<_> = lines.iter().filter(|line| [1, 2].contains(&line.0)).cloned().collect();
        free.sort();
        lines.retain(|line| ![1, 2].contains(&line.0));
        (in_groups, lines, free)
    };
    let lists = |answer: &str| -> Vec<_> {
        let lines: Vec<&str> = answer.lines().collect();
        lines.split_inclusive(|line| line.starts_with("sum,")).map(groups).collect()
    };
    if lists(expected) == lists(actual) {
        Verdict::OrderOnly
    } else {
        Verdict::Different
    }
}

/// What the answers of a folder are by.
#[derive(Clone, Copy, PartialEq)]
enum Answers {
    /// Document 02: 6 speaks of names only, and the order of definitions and declarations is fixed.
    Document02,
    /// Document 01: 6 speaks of any limit, and the order is free.
    Document01,
}

/// Checks every file of a folder.
fn check_folder(folder: &Path, answers: Answers) {
    let mut inputs: Vec<_> = fs::read_dir(folder)
        .expect("the folder can be read")
        .map(|entry| entry.expect("an entry").path())
        .filter(|path| path.extension().is_some_and(|extension| extension == "in"))
        .collect();
    inputs.sort();
    assert!(!inputs.is_empty(), "no case in {}", folder.display());

    let (mut wrong, mut reordered, mut renumbered, mut sums) = (Vec::new(), Vec::new(), Vec::new(), 0);
    for input in &inputs {
        let name = input.file_stem().unwrap().to_string_lossy().into_owned();
        let file = fs::read(input).expect("the file can be read");
        let expected = fs::read_to_string(input.with_extension("out")).expect("an answer beside the file");
        let command = fs::read_to_string(input.with_extension("args")).unwrap_or_default();
        let actual = command.parse::<Command>().expect("a command").printed(&file);
        match compare(&file, &expected, &actual) {
            Verdict::Same => {}
            Verdict::OrderOnly if answers == Answers::Document01 => reordered.push(name.clone()),
            Verdict::NumberOnly if answers == Answers::Document01 => renumbered.push(name.clone()),
            _ => wrong.push(format!("{name}\nexpected\n{expected}actual\n{actual}")),
        }
        if let Ok(expected) = fs::read_to_string(input.with_extension("sum")) {
            sums += 1;
            let summaries = compare::summaries(&file).expect("an accepted file");
            let actual: String = summaries.iter().map(ToString::to_string).collect();
            if actual != expected {
                wrong.push(format!("{name}\nexpected\n{expected}actual\n{actual}"));
            }
        }
    }
    println!("{}: {} answers, {sums} summaries", folder.display(), inputs.len());
    if !reordered.is_empty() {
        println!("other order inside definitions or declarations: {}", reordered.join(" "));
    }
    if !renumbered.is_empty() {
        println!("6 there, 10, 11 or 12 here: {}", renumbered.join(" "));
    }
    assert!(wrong.is_empty(), "{} differ\n{}", wrong.len(), wrong.join("\n"));
}

#[test]
fn cases_beside_the_tests() {
    check_folder(Path::new(env!("CARGO_MANIFEST_DIR")).join("cases").as_path(), Answers::Document02);
}

#[test]
fn examples() {
    check_folder(Path::new(env!("CARGO_MANIFEST_DIR")).join("../examples").as_path(), Answers::Document02);
}

#[test]
fn cases_of_the_environment() {
    match std::env::var_os("WIMPLEJADE_CASES") {
        Some(folder) => check_folder(Path::new(&folder), Answers::Document01),
        None => println!("skipped: WIMPLEJADE_CASES is not set"),
    }
}
