//! Calls of the order check of the linked library.

use std::fs;
use std::path::{Path, PathBuf};

use wimplejade::{Filter, Refusal, Row, Sort, MOST_BYTES, MOST_LATE_ROWS, MOST_RECORDS, WORKING_WORDS};

/// A definition whose parts come later or nowhere, one with a part that is nowhere, and one with a part above.
const LATE: &[u8] = b"ask,0,0\nfree,x\nfree,h\nop,other,0,1\ndef,g,2\ndef,h,0\nfun,f\nfree,f\ndef,k,3\n";

/// What is lent holds this before a call.
const DIRT: u32 = 0xdead_beef;
const DIRTY_ROW: Row = Row { line: DIRT, number: DIRT, cause: DIRT };

/// Six working slices of these lengths, and a table, all dirty.
fn lent(words: [usize; 6], rows: usize) -> ([Vec<u32>; 6], Vec<Row>) {
    (words.map(|words| vec![DIRT; words]), vec![DIRTY_ROW; rows])
}

/// A call with lent slices.
fn order(file: &[u8], working: &mut [Vec<u32>; 6], rows: &mut [Row]) -> Result<usize, Refusal> {
    wimplejade::order(file, working.each_mut().map(Vec::as_mut_slice), rows)
}

/// The files of a folder of the repository with an extension; none where the package stands alone.
fn files(folder: &str, extension: &str) -> Vec<PathBuf> {
    let folder = Path::new(env!("CARGO_MANIFEST_DIR")).join("../..").join(folder);
    let entries = fs::read_dir(folder).into_iter().flatten().map(|entry| entry.unwrap().path());
    entries.filter(|path| path.extension().is_some_and(|other| other == extension)).collect()
}

#[test]
fn names_that_come_later_or_nowhere() {
    let late = Filter::new().order(LATE).unwrap();
    assert_eq!(late.to_string(), "row,5,1,1,g,h\nrow,5,0,2,g,x\nrow,6,0,2,h,x\nrows,3\n");
    assert!(!late.is_in_order());
    let need = late.all()[0];
    assert_eq!((need.def.line, need.def.name_str(), need.number, need.name), (5, "g", 1, &b"h"[..]));
    assert_eq!((need.name_str(), need.sort), ("h", Sort::Later));
    assert_eq!(need.sort.to_string(), "its def or fun stands on the same line or a later one");
}

#[test]
fn in_order_and_not() {
    let mut filter = Filter::new();
    for (file, is_in_order, rows) in [
        (&b"ask,0,0\n"[..], true, 0),
        (b"ask,0,0\nfree,x\ndef,g,0\n", true, 1),
        (b"ask,0,0\nfree,x\nfun,x\ndef,g,0\n", true, 0),
        (b"ask,0,0\nfree,g\ndef,g,0\n", false, 1),
        (b"ask,0,0\nhide,g\nfree,g\ndef,g,0\n", true, 0),
    ] {
        let late = filter.order(file).unwrap();
        assert_eq!((late.is_in_order(), late.all().len()), (is_in_order, rows));
    }
}

#[test]
fn sorts_are_numbered() {
    for sort in [Sort::Later, Sort::Neither] {
        assert_eq!(Sort::of(sort.number()), Some(sort));
    }
    assert_eq!((Sort::of(0), Sort::of(3)), (None, None));
}

#[test]
fn the_examples_and_the_cases() {
    let mut filter = Filter::new();
    let mut check = |path: &Path, answer: &Path| {
        let file = fs::read(path.with_extension("in")).unwrap();
        let told = filter.order(&file);
        let told = told.map_or_else(
            |refusal| format!("refused,{},{}\n", refusal.number(), refusal.place()),
            |late| late.to_string(),
        );
        assert_eq!(told, fs::read_to_string(answer).unwrap(), "{}", answer.display());
    };
    for path in files("examples", "order") {
        check(&path, &path);
    }
    for path in files("compare/cases", "args") {
        if fs::read_to_string(&path).unwrap().trim() == "order" {
            check(&path, &path.with_extension("out"));
        }
    }
}

#[test]
fn refusals() {
    let mut filter = Filter::new();
    assert_eq!(filter.order(b""), Err(Refusal::Form { line: 1 }));
    assert_eq!(filter.order(&vec![b'\n'; MOST_BYTES + 1]), Err(Refusal::Size));
    let refusal = Refusal::Table { rows: 3 };
    assert_eq!((refusal.number(), refusal.place(), refusal.line()), (8, 3, None));
    assert_eq!(refusal.to_string(), "the table is too short for 3 rows");
}

#[test]
fn what_is_lent_comes_back_as_said() {
    let lengths = [0, 1, 2, 3, 4, 5].map(|more| WORKING_WORDS + more);
    let (mut working, mut rows) = lent(lengths, 4);
    assert_eq!(order(LATE, &mut working, &mut rows), Ok(3));
    let row = |line, number, cause| Row { line, number, cause };
    assert_eq!(rows, [row(5, 1, 1), row(5, 0, 2), row(6, 0, 2), DIRTY_ROW]);
    for words in &working {
        assert!(words[..WORKING_WORDS].iter().all(|&word| word == 0));
        assert!(words[WORKING_WORDS..].iter().all(|&word| word == DIRT));
    }
    for (room, answer) in [(3, Ok(3)), (2, Err(Refusal::Table { rows: 3 })), (0, Err(Refusal::Table { rows: 3 }))] {
        let (mut working, mut rows) = lent([WORKING_WORDS; 6], room);
        assert_eq!(order(LATE, &mut working, &mut rows), answer);
        assert!(working.iter().flatten().all(|&word| word == 0));
        assert_eq!(rows == vec![DIRTY_ROW; room], answer.is_err());
    }
}

#[test]
fn a_short_working_slice_touches_nothing() {
    for short in 0..6 {
        let mut lengths = [WORKING_WORDS; 6];
        lengths[short] -= 1;
        let (mut working, mut rows) = lent(lengths, 4);
        assert_eq!(order(b"", &mut working, &mut rows), Err(Refusal::Working));
        assert_eq!((working, rows), lent(lengths, 4));
    }
}

#[test]
fn as_many_rows_as_there_can_be() {
    let names: String = (0..6).map(|index| format!("free,n{index}\n")).collect();
    let defs: String = (0..MOST_RECORDS).map(|index| format!("def,d{index},6\n")).collect();
    let file = format!("ask,0,0\n{names}op,other,0,1,2,3,4,5\n{defs}");
    assert_eq!(Filter::new().order(file.as_bytes()).map(|late| late.all().len()), Ok(MOST_LATE_ROWS));
}

#[test]
fn a_filter_serves_all_calls() {
    let mut filter = Filter::new();
    for _ in 0..2 {
        assert_eq!(filter.order(LATE).unwrap().all().len(), 3);
        assert_eq!(filter.why(LATE, 1).unwrap().all().len(), 0);
        assert_eq!(filter.run(LATE).unwrap().records().count(), 0);
        assert_eq!(filter.sweep(LATE).unwrap().lists().len(), 1);
    }
}
