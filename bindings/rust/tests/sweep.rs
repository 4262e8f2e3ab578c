//! Calls of the second engine of the linked library.

use std::fs;
use std::path::Path;

use wimplejade::{Filter, Refusal, MOST_ASKS, MOST_BYTES, MOST_RECORDS, WORKING_WORDS};

const WORKED: &[u8] = b"ask,0,4\nfree,p\nfree,q\ncall,f,0\nall,2,1,1,2\nassume,a1,0,3\nfun,f\ndef,g,1\ncall,g\n\
    op,eq,4,1\nassume,e1,0,5\nop,and,2,4\nroot,0,r,6\n";

/// A chain whose second fact stands first, over an ask, an also and an ask line.
const BACKWARDS: &[u8] =
    b"ask,0,0\nalso,1\nask,9,1\nfree,p\nfree,q\nall,0,1,1,1\nassume,on_q,0,2\nall,1,1,1,0\nassume,on_p,0,3\n\
    leaf\nassume,loose,0,4\nroot,0,goal,0\nroot,1,goal,1\n";

/// What is lent holds this before a call.
const DIRT: u32 = 0xdead_beef;

/// Six working slices of these lengths, and a result slice, all dirty.
fn lent(words: [usize; 6], room: usize) -> ([Vec<u32>; 6], Vec<u32>) {
    (words.map(|words| vec![DIRT; words]), vec![DIRT; room])
}

/// The kept lines and the passes of each ask of a call with lent slices. Past the last they are 0.
fn counts(file: &[u8], working: &mut [Vec<u32>; 6], result: &mut [u32]) -> Result<Vec<(u32, u32)>, Refusal> {
    let counts = wimplejade::sweep(file, working.each_mut().map(Vec::as_mut_slice), result)?;
    let of = |index| (counts.kept[index], counts.passes[index]);
    assert!((counts.asks()..MOST_ASKS).all(|index| of(index) == (0, 0)));
    Ok((0..counts.asks()).map(of).collect())
}

/// The files of a folder of the repository with an extension; none where the package stands alone.
fn files(folder: &str, extension: &str) -> Vec<std::path::PathBuf> {
    let folder = Path::new(env!("CARGO_MANIFEST_DIR")).join("../..").join(folder);
    let entries = fs::read_dir(folder).into_iter().flatten().map(|entry| entry.unwrap().path());
    entries.filter(|path| path.extension().is_some_and(|other| other == extension)).collect()
}

#[test]
fn the_worked_example() {
    let mut filter = Filter::new();
    let swept = filter.sweep(WORKED).unwrap();
    assert_eq!(swept.to_string(), "kept,6,a1\nkept,11,e1\nkept,8,g\nkept,7,f\npass,4,2\n");
    assert_eq!(swept.lists().len(), 1);
    assert_eq!(swept.list(1).map(|list| (list.records.len(), list.passes)), Some((4, 2)));
    assert_eq!((swept.list(0), swept.list(2)), (None, None));
}

#[test]
fn passes_of_each_ask_and_also_line() {
    let mut filter = Filter::new();
    let swept = filter.sweep(BACKWARDS).unwrap();
    let both = "kept,9,on_p\nkept,7,on_q\nkept,11,loose\n";
    assert_eq!(swept.to_string(), format!("{both}pass,3,3\n{both}pass,3,2\npass,0,1\n"));
    assert_eq!(filter.sweep(b"ask,0,0\n").unwrap().to_string(), "pass,0,1\n");
}

#[test]
fn the_lists_are_those_of_the_first_engine() {
    let mut filter = Filter::new();
    for path in files("examples", "in").into_iter().chain(files("compare/cases", "in")) {
        let file = fs::read(&path).unwrap();
        let (first, second) = (filter.run(&file), filter.sweep(&file));
        match (first, second) {
            (Ok(first), Ok(second)) => {
                let lists = first.lists().iter().map(|list| &list.records);
                assert!(lists.eq(second.lists().iter().map(|list| &list.records)), "{}", path.display());
                assert!(second.lists().iter().all(|list| list.passes >= 1));
            }
            (first, second) => assert_eq!(first.err(), second.err(), "{}", path.display()),
        }
    }
}

#[test]
fn the_examples_and_the_cases() {
    let mut filter = Filter::new();
    let mut check = |path: &Path, answer: &Path| {
        let file = fs::read(path.with_extension("in")).unwrap();
        let told = filter.sweep(&file);
        let told = told.map_or_else(
            |refusal| format!("refused,{},{}\n", refusal.number(), refusal.place()),
            |swept| swept.to_string(),
        );
        assert_eq!(told, fs::read_to_string(answer).unwrap(), "{}", answer.display());
    };
    for path in files("examples", "sweep") {
        check(&path, &path);
    }
    for path in files("compare/cases", "args") {
        if fs::read_to_string(&path).unwrap().trim() == "sweep" {
            check(&path, &path.with_extension("out"));
        }
    }
}

#[test]
fn refusals_are_those_of_the_first_engine() {
    let mut filter = Filter::new();
    let (long, asks) = (vec![b'\n'; MOST_BYTES + 1], b"ask,0,0\n".repeat(MOST_ASKS + 1));
    for file in [&b""[..], b"ask,0,16\n", b"ask,0,0\nlabel,0\n", &long, &asks] {
        assert_eq!(filter.sweep(file).err(), Some(filter.run(file).unwrap_err()));
    }
}

#[test]
fn as_many_passes_as_there_can_be() {
    let facts = MOST_RECORDS - 1;
    let terms: String = (0..facts).map(|index| format!("all,{},1,1,{index}\n", index + 1)).collect();
    let names: String = (0..=facts).map(|index| format!("free,n{index}\n")).collect();
    let facts_backwards: String =
        (0..facts).rev().map(|index| format!("assume,f{index},0,{}\n", facts + 1 + index)).collect();
    let file = format!("ask,0,0\n{names}{terms}{facts_backwards}root,0,goal,0\n");
    let passes =
        Filter::new().sweep(file.as_bytes()).map(|swept| (swept.lists()[0].records.len(), swept.lists()[0].passes));
    assert_eq!(passes, Ok((facts, MOST_RECORDS as u32)));
}

#[test]
fn what_is_lent_comes_back_as_said() {
    let lengths = [0, 1, 2, 3, 4, 5].map(|more| WORKING_WORDS + more);
    let (mut working, mut result) = lent(lengths, 7);
    assert_eq!(counts(BACKWARDS, &mut working, &mut result), Ok(vec![(3, 3), (3, 2), (0, 1)]));
    assert_eq!(result, [9, 7, 11, 9, 7, 11, DIRT]);
    for words in &working {
        assert!(words[..WORKING_WORDS].iter().all(|&word| word == 0));
        assert!(words[WORKING_WORDS..].iter().all(|&word| word == DIRT));
    }
    for (room, answer) in [(6, Ok(vec![(3, 3), (3, 2), (0, 1)])), (5, Err(Refusal::Room { kept: 6 }))] {
        let (mut working, mut result) = lent([WORKING_WORDS; 6], room);
        assert_eq!(counts(BACKWARDS, &mut working, &mut result), answer);
        assert_eq!(result == vec![DIRT; room], answer.is_err());
    }
}

#[test]
fn a_short_working_slice_touches_nothing() {
    for short in 0..6 {
        let mut lengths = [WORKING_WORDS; 6];
        lengths[short] -= 1;
        let (mut working, mut result) = lent(lengths, 6);
        assert_eq!(counts(b"", &mut working, &mut result), Err(Refusal::Working));
        assert_eq!((working, result), lent(lengths, 6));
    }
}
