//! Calls of reasons of the linked library.

use std::fs;
use std::path::{Path, PathBuf};

use wimplejade::{Filter, Refusal, Row, MOST_BYTES, MOST_ROWS, WORKING_WORDS};

const WORKED: &[u8] = b"ask,0,4\nfree,p\nfree,q\ncall,f,0\nall,2,1,1,2\nassume,a1,0,3\nfun,f\ndef,g,1\ncall,g\n\
    op,eq,4,1\nassume,e1,0,5\nop,and,2,4\nroot,0,r,6\n";

/// A chain of two facts, and one that waits for names of both, over an ask and an also line.
const CHAIN: &[u8] =
    b"ask,7,0\nalso,0\nfree,p\nfree,q\nfree,s\nall,1,1,1,0\nassume,on_p,0,3\nall,2,1,1,1\nassume,on_q,0,4\n\
    all,0,1,2,0,2\nassume,on_both,0,5\nroot,0,goal,0\n";

/// What is lent holds this before a call.
const DIRT: u32 = 0xdead_beef;
const DIRTY_ROW: Row = Row { line: DIRT, number: DIRT, cause: DIRT };

/// Six working slices of these lengths, and a table, all dirty.
fn lent(words: [usize; 6], rows: usize) -> ([Vec<u32>; 6], Vec<Row>) {
    (words.map(|words| vec![DIRT; words]), vec![DIRTY_ROW; rows])
}

/// The names met and the rows filled of a call with lent slices.
fn counts(
    file: &[u8],
    position: usize,
    working: &mut [Vec<u32>; 6],
    rows: &mut [Row],
) -> Result<(usize, usize), Refusal> {
    let counts = wimplejade::why(file, position, working.each_mut().map(Vec::as_mut_slice), rows)?;
    Ok((counts.met, counts.rows))
}

/// A folder of the repository; none where the package stands alone.
fn of_repository(path: &str) -> Option<PathBuf> {
    let path = Path::new(env!("CARGO_MANIFEST_DIR")).join("../..").join(path);
    path.exists().then_some(path)
}

#[test]
fn the_worked_example() {
    let mut filter = Filter::new();
    let reasons = filter.why(WORKED, 1).unwrap();
    let rows = "row,6,2,13,a1,f,r\nrow,6,0,13,a1,p,r\nrow,11,4,13,e1,g,r\nrow,11,1,13,e1,q,r\n";
    assert_eq!(reasons.to_string(), format!("{rows}met,4\nrows,4\n"));
    assert_eq!((reasons.met(), reasons.all().len(), reasons.of(6).len(), reasons.of(11).len()), (4, 4, 2, 2));
    assert_eq!((reasons.of(13), reasons.round(6), reasons.round(13)), (&[][..], Some(1), None));
    let reason = reasons.of(6)[0];
    assert_eq!((reason.fact.line, reason.number, reason.supplier.line), (6, 2, 13));
    assert_eq!((reason.fact.name_str(), reason.name, reason.name_str()), ("a1", &b"f"[..], "f"));
    assert_eq!(reason.supplier.to_string(), "r");
}

#[test]
fn suppliers_lead_down_to_a_root() {
    let mut filter = Filter::new();
    let reasons = filter.why(CHAIN, 2).unwrap();
    let chain = |line| reasons.chain(line).iter().map(|reason| reason.name_str()).collect::<Vec<_>>();
    assert_eq!((chain(7), chain(9), chain(11)), (vec!["p"], vec!["q", "p"], vec!["s", "q", "p"]));
    assert_eq!([7, 9, 11].map(|line| reasons.round(line)), [Some(1), Some(2), Some(3)]);
    assert_eq!((chain(12), chain(1), chain(99)), (vec![], vec![], vec![]));
    for reason in reasons.all() {
        let chain = reasons.chain(reason.fact.line);
        assert_eq!(chain.len() as u32, reasons.round(reason.fact.line).unwrap());
        assert!(chain.windows(2).all(|pair| pair[0].supplier == pair[1].fact));
        assert_eq!(chain.last().unwrap().supplier.name_str(), "goal");
    }
    // Position 1 has no root, and the reasons of position 2 are those of both.
    assert_eq!(filter.why(CHAIN, 1).unwrap().to_string(), "met,0\nrows,0\n");
}

#[test]
fn an_ambient_root_supplies() {
    let file = b"ask,0,0\nfree,p\nfree,Tm_refine_1\ncall,HasType,0,1\nassume,h,0,2\nop,eq,0,0\nassume,a,0,3\n";
    let reasons = Filter::new().why(file, 1).unwrap();
    assert_eq!(reasons.to_string(), "row,7,0,5,a,p,h\nmet,2\nrows,1\n");
    assert_eq!((reasons.round(7), reasons.round(5), reasons.chain(7).len()), (Some(1), None, 1));
}

#[test]
fn a_position_without_an_ask_line_is_refused() {
    let mut filter = Filter::new();
    for position in [0, 3, 17, usize::MAX] {
        assert_eq!(filter.why(CHAIN, position), Err(Refusal::Position));
        // Every line is read first.
        assert_eq!(filter.why(b"ask,0,0\nleaf,\n", position), Err(Refusal::Form { line: 2 }));
    }
    assert_eq!(filter.why(&vec![b'\n'; MOST_BYTES + 1], 0), Err(Refusal::Size));
}

#[test]
fn a_filter_serves_both_calls() {
    let mut filter = Filter::new();
    for _ in 0..2 {
        assert_eq!(filter.run(WORKED).unwrap().records().count(), 4);
        assert_eq!(filter.why(WORKED, 1).unwrap().all().len(), 4);
        assert_eq!(filter.why(b"", 1), Err(Refusal::Form { line: 1 }));
    }
}

#[test]
fn what_is_lent_comes_back_as_said() {
    let lengths = [0, 1, 2, 3, 4, 5].map(|more| WORKING_WORDS + more);
    let (mut working, mut rows) = lent(lengths, MOST_ROWS + 1);
    assert_eq!(counts(WORKED, 1, &mut working, &mut rows), Ok((4, 4)));
    let row = |line, number, cause| Row { line, number, cause };
    assert_eq!(rows[..4], [row(6, 2, 13), row(6, 0, 13), row(11, 4, 13), row(11, 1, 13)]);
    assert!(rows[4..].iter().all(|&row| row == DIRTY_ROW));
    for words in &working {
        assert!(words[..WORKING_WORDS].iter().all(|&word| word == 0));
        assert!(words[WORKING_WORDS..].iter().all(|&word| word == DIRT));
    }
    for (file, position, refusal) in [(WORKED, 2, Refusal::Position), (b"", 1, Refusal::Form { line: 1 })] {
        let (mut working, mut rows) = lent([WORKING_WORDS; 6], MOST_ROWS);
        assert_eq!(counts(file, position, &mut working, &mut rows), Err(refusal));
        assert!(working.iter().flatten().all(|&word| word == 0));
        assert!(rows.iter().all(|&row| row == DIRTY_ROW));
    }
}

#[test]
fn a_short_slice_or_table_touches_nothing() {
    for short in 0..7 {
        let (mut lengths, mut room) = ([WORKING_WORDS; 6], MOST_ROWS);
        *lengths.get_mut(short).unwrap_or(&mut room) -= 1;
        let (mut working, mut rows) = lent(lengths, room);
        assert_eq!(counts(b"", 0, &mut working, &mut rows), Err(Refusal::Working));
        assert_eq!((working, rows), lent(lengths, room));
    }
}

#[test]
fn as_many_rows_as_there_can_be() {
    let facts: String = (0..MOST_ROWS / 2).map(|index| format!("assume,a{index},0,1\n")).collect();
    let file = format!("ask,0,0\nfree,p\nop,eq,0,0\n{facts}");
    assert_eq!(Filter::new().why(file.as_bytes(), 1).unwrap().all().len(), 0);
    let facts: String = (1..MOST_ROWS / 2).map(|index| format!("assume,a{index},0,2\n")).collect();
    let file = format!("ask,0,0\nfree,p\nfree,q\nall,0,1,2,0,1\n{facts}root,0,goal,2\n");
    let reasons = Filter::new().why(file.as_bytes(), 1).unwrap();
    assert_eq!((reasons.all().len(), reasons.met()), (MOST_ROWS - 2, 2));
}

#[test]
fn the_examples_and_the_cases() {
    let mut filter = Filter::new();
    let mut check = |file: &Path, position: usize, answer: &Path| {
        let file = fs::read(file).unwrap();
        let told = filter.why(&file, position);
        let told = told.map_or_else(
            |refusal| format!("refused,{},{}\n", refusal.number(), refusal.place()),
            |reasons| reasons.to_string(),
        );
        assert_eq!(told, fs::read_to_string(answer).unwrap(), "{}", answer.display());
    };
    for path in of_repository("examples").into_iter().flat_map(|folder| fs::read_dir(folder).unwrap()) {
        let path = path.unwrap().path();
        if path.extension().is_some_and(|extension| extension == "rows") {
            check(&path.with_extension("in"), 1, &path);
        }
    }
    for path in of_repository("compare/cases").into_iter().flat_map(|folder| fs::read_dir(folder).unwrap()) {
        let path = path.unwrap().path();
        if path.extension().is_some_and(|extension| extension == "args") {
            let args = fs::read_to_string(&path).unwrap();
            if let Some(position) = args.trim().strip_prefix("why ") {
                check(&path.with_extension("in"), position.parse().unwrap(), &path.with_extension("out"));
            }
        }
    }
}
