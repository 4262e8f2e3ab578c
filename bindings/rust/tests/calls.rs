//! Calls of the linked library.

use std::error::Error;
use std::fs;
use std::path::{Path, PathBuf};

use wimplejade::{Filter, Refusal, MOST_ASKS, MOST_BYTES, MOST_KEPT, MOST_RECORDS, WORKING_WORDS};

const WORKED: &[u8] = b"ask,0,4\nfree,p\nfree,q\ncall,f,0\nall,2,1,1,2\nassume,a1,0,3\nfun,f\ndef,g,1\ncall,g\n\
    op,eq,4,1\nassume,e1,0,5\nop,and,2,4\nroot,0,r,6\n";

/// Three asks over one background: they keep one line, none, and two.
const DAY: &[u8] =
    b"ask,1,0\nask,7,4\nask,0,4\nfree,p\nfree,q\nop,eq,0,0\nassume,on_p,0,2\nop,eq,1,1\nassume,on_q,0,3\n\
    fun,p\nroot,0,goal,0\nroot,1,goal,1\n";

/// Two chains over one background: a goal, one more, the first again; then the second alone.
const CHAINS: &[u8] =
    b"ask,0,4\nalso,1\nalso,0\nask,1,0\nfree,p\nfree,q\nop,eq,0,0\nassume,on_p,0,2\nop,eq,1,1\nassume,on_q,0,3\n\
    fun,p\nroot,0,goal,0\nroot,1,goal,1\n";

/// Groups over one background: the first, the second on an also line, none, and both.
const GROUPS: &[u8] =
    b"ask2,0,4,1\nask2,9,0,2\nalso,0\nask2,0,4,0\nask2,0,0,32771\nfree,p\nop,eq,0,0\nassume,on_p,0,0,1\n\
    assume,once_more,0,1,1\nleaf\nassume,loose,0,15,2\nfun,p\nroot,0,goal,0\n";

/// What a slice that is lent holds before a call.
const DIRT: u32 = 0xdead_beef;

/// Six working slices of these lengths, and a result slice, all dirty.
fn lent(words: [usize; 6], room: usize) -> ([Vec<u32>; 6], Vec<u32>) {
    (words.map(|words| vec![DIRT; words]), vec![DIRT; room])
}

/// The kept lines, the visits and the rounds of each ask of a call with lent slices. Past the last they are 0.
fn counts(file: &[u8], working: &mut [Vec<u32>; 6], result: &mut [u32]) -> Result<Vec<(u32, u32, u32)>, Refusal> {
    let counts = wimplejade::filter(file, working.each_mut().map(Vec::as_mut_slice), result)?;
    let of = |index| (counts.kept[index], counts.visits[index], counts.rounds[index]);
    assert!((counts.asks()..MOST_ASKS).all(|index| of(index) == (0, 0, 0)));
    Ok((0..counts.asks()).map(of).collect())
}

/// A folder or file of the repository; none where the package stands alone.
fn of_repository(path: &str) -> Option<PathBuf> {
    let path = Path::new(env!("CARGO_MANIFEST_DIR")).join("../..").join(path);
    if !path.exists() {
        println!("skipped: there is no {}", path.display());
        return None;
    }
    Some(path)
}

#[test]
fn the_worked_example() {
    let mut filter = Filter::new();
    let kept = filter.run(WORKED).unwrap();
    assert_eq!(kept.to_string(), "kept,6,a1\nkept,11,e1\nkept,8,g\nkept,7,f\nsum,4,4,2\n");
    assert_eq!(kept.lines().collect::<Vec<_>>(), [6, 11, 8, 7]);
    assert_eq!(kept.names().collect::<Vec<_>>(), [&b"a1"[..], b"e1", b"g", b"f"]);
    assert_eq!((&kept).into_iter().map(|record| record.name_str()).collect::<Vec<_>>(), ["a1", "e1", "g", "f"]);
    assert_eq!(kept.lists().len(), 1);
    let list = kept.list(1).unwrap();
    assert_eq!((list.records.len(), list.visits, list.rounds), (4, 4, 2));
    assert_eq!(list.to_string(), kept.to_string());
    assert_eq!(kept.into_iter().map(|record| record.line).sum::<u32>(), 32);
}

#[test]
fn a_days_goals() {
    let mut filter = Filter::new();
    let kept = filter.run(DAY).unwrap();
    assert_eq!(kept.to_string(), "kept,9,on_q\nsum,1,2,2\nsum,0,0,1\nkept,7,on_p\nkept,10,p\nsum,2,2,2\n");
    let lists: Vec<Vec<u32>> = kept.lists().iter().map(|list| list.lines().collect()).collect();
    assert_eq!(lists, [vec![9], vec![], vec![7, 10]]);
    let counts: Vec<(u32, u32)> = kept.lists().iter().map(|list| (list.visits, list.rounds)).collect();
    assert_eq!(counts, [(2, 2), (0, 1), (2, 2)]);
    // All lists end to end.
    assert_eq!(kept.lines().collect::<Vec<_>>(), [9, 7, 10]);
    assert_eq!(kept.names().collect::<Vec<_>>(), [&b"on_q"[..], b"on_p", b"p"]);
    assert_eq!((&kept).into_iter().count(), 3);
    // A position is counted from 1.
    for position in 1..=3 {
        assert_eq!(kept.list(position), Some(&kept.lists()[position - 1]));
    }
    assert_eq!((kept.list(0), kept.list(4)), (None, None));
    let last = kept.list(3).unwrap().clone();
    assert_eq!(last.names().map(<[u8]>::len).collect::<Vec<_>>(), [4, 1]);
    assert_eq!(last.into_iter().map(|record| record.line).collect::<Vec<_>>(), [7, 10]);
    assert_eq!(kept.into_iter().map(|record| record.line).collect::<Vec<_>>(), [9, 7, 10]);
}

#[test]
fn each_list_is_that_of_its_ask_line_alone() {
    let mut filter = Filter::new();
    let kept = filter.run(DAY).unwrap();
    for (list, ask) in kept.lists().iter().zip(["ask,1,0\n", "ask,7,4\n", "ask,0,4\n"]) {
        let alone = [ask.as_bytes(), &DAY[24..]].concat();
        let alone = filter.run(&alone).unwrap();
        assert_eq!(alone.lines().map(|line| line + 2).collect::<Vec<_>>(), list.lines().collect::<Vec<_>>());
        assert_eq!((alone.lists()[0].visits, alone.lists()[0].rounds), (list.visits, list.rounds));
    }
}

#[test]
fn a_chain_goes_on_from_list_to_list() {
    let mut filter = Filter::new();
    let kept = filter.run(CHAINS).unwrap();
    let both = "kept,8,on_p\nkept,10,on_q\nkept,11,p\n";
    assert_eq!(
        kept.to_string(),
        format!("kept,8,on_p\nkept,11,p\nsum,2,2,2\n{both}sum,3,2,2\n{both}sum,3,0,1\nkept,10,on_q\nsum,1,2,2\n")
    );
    assert_eq!(kept.list(3).map(|list| &list.records), kept.list(2).map(|list| &list.records));
    let (mut working, mut result) = lent([WORKING_WORDS; 6], 10);
    let counted = counts(CHAINS, &mut working, &mut result);
    assert_eq!(counted, Ok(vec![(2, 2, 2), (3, 2, 2), (3, 0, 1), (1, 2, 2)]));
    assert_eq!(result, [8, 11, 8, 10, 11, 8, 10, 11, 10, DIRT]);
}

#[test]
fn groups_are_on_and_off() {
    let mut filter = Filter::new();
    let kept = filter.run(GROUPS).unwrap();
    let (first, second) = ("kept,8,on_p\nkept,12,p\nsum,2,2,2\n", "sum,0,0,1\nkept,9,once_more\nsum,1,2,2\n");
    let (none, all) = ("kept,12,p\nsum,1,0,1\n", "kept,8,on_p\nkept,9,once_more\nkept,11,loose\nsum,3,4,2\n");
    assert_eq!(kept.to_string(), [first, second, none, all].concat());
}

#[test]
fn the_older_form_is_the_newer_one_with_all_groups() {
    let newer =
        "ask2,0,4,65535\nalso,1\nalso,0\nask2,1,0,65535\nfree,p\nfree,q\nop,eq,0,0\nassume,on_p,0,15,2\nop,eq,1,1\n\
        assume,on_q,0,7,3\nfun,p\nroot,0,goal,0\nroot,1,goal,1\n";
    let mut filter = Filter::new();
    let older = filter.run(CHAINS).unwrap().to_string();
    assert_eq!(filter.run(newer.as_bytes()).unwrap().to_string(), older);
}

#[test]
fn as_many_lists_as_there_can_be_and_each_as_long() {
    let facts: String = (0..MOST_RECORDS).map(|index| format!("assume,a{index},0,0\n")).collect();
    for line in ["ask,0,0\n", "also,0\n"] {
        let file = format!("ask,0,0\n{}leaf\n{facts}", line.repeat(MOST_ASKS - 1));
        let kept =
            Filter::new().run(file.as_bytes()).map(|kept| kept.lists().iter().map(|list| list.lines().len()).collect());
        assert_eq!(kept, Ok(vec![MOST_RECORDS; MOST_ASKS]));
        let (mut working, mut result) = lent([WORKING_WORDS; 6], MOST_KEPT - 1);
        let refused = counts(file.as_bytes(), &mut working, &mut result);
        assert_eq!(refused, Err(Refusal::Room { kept: MOST_KEPT as u32 }));
        assert!(result.iter().all(|&word| word == DIRT));
    }
}

#[test]
fn names_are_parts_of_the_file_and_outlive_the_next_run() {
    let mut filter = Filter::new();
    let kept = filter.run(WORKED).unwrap();
    assert_eq!(filter.run(b"ask,0,0\n").unwrap().records().count(), 0);
    let at = WORKED.windows(3).position(|part| part == b"e1,").unwrap();
    let list = &kept.lists()[0];
    assert_eq!(list.records[1].name.as_ptr(), WORKED[at..].as_ptr());
    assert_eq!(list.records[1].name, b"e1");
}

#[test]
fn a_filter_runs_many_files() {
    let mut filter = Filter::default();
    for _ in 0..3 {
        assert_eq!(filter.run(WORKED).unwrap().records().count(), 4);
        assert_eq!(filter.run(DAY).unwrap().lists().len(), 3);
        assert_eq!(filter.run(CHAINS).unwrap().lists().len(), 4);
        assert_eq!(filter.run(GROUPS).unwrap().lists().len(), 5);
        assert_eq!(filter.run(b"").unwrap_err(), Refusal::Form { line: 1 });
    }
}

#[test]
fn every_refusal_of_the_exporter() {
    let long = vec![b'\n'; MOST_BYTES + 1];
    let many = format!("ask,0,0\n{}", "fun,f\n".repeat(2));
    let names: String = (0..2_049).map(|index| format!(",n{index}")).collect();
    let names = format!("ask,0,0\nretain{names}\n");
    let terms = format!("ask,0,0\n{}", "leaf\n".repeat(4_097));
    let records = format!("ask,0,0\n{}", "retain\n".repeat(1_025));
    let entries = format!("ask,0,0\nleaf\nall,0,2049{}\nassume,a,0,1\n", ",0".repeat(2_049));
    let asks = "ask,0,0\n".repeat(17);
    let chain = format!("ask,0,0\n{}", "also,0\n".repeat(16));
    let asks2 = format!("{}ask,0,0\n", "ask2,0,0,1\n".repeat(16));
    let refused: [(&[u8], Refusal); 23] = [
        (b"", Refusal::Form { line: 1 }),
        (b"ask,0,0", Refusal::Form { line: 1 }),
        (b"ask,0,0\nfree,p q\n", Refusal::Name { line: 2 }),
        (b"ask,256,0\n", Refusal::Number { line: 1 }),
        (b"ask,0,0\nlabel,0\n", Refusal::Term { line: 2 }),
        (many.as_bytes(), Refusal::Repeated { line: 3 }),
        (names.as_bytes(), Refusal::FullNames { line: 2 }),
        (terms.as_bytes(), Refusal::FullTerms { line: 4_098 }),
        (records.as_bytes(), Refusal::FullRecords { line: 1_026 }),
        (entries.as_bytes(), Refusal::FullTriggers { line: 4 }),
        (asks.as_bytes(), Refusal::FullAsks { line: 17 }),
        (chain.as_bytes(), Refusal::FullAsks { line: 17 }),
        (b"also,0\n", Refusal::Form { line: 1 }),
        (b"ask,0,0\nhide,p\nalso,0\n", Refusal::Form { line: 3 }),
        (b"ask,0,0\nhide,p\nask,0,0\n", Refusal::Form { line: 3 }),
        (b"ask,0,0\nask2,0,0,1\n", Refusal::Form { line: 2 }),
        (b"ask2,0,0,1\nask,0,0\n", Refusal::Form { line: 2 }),
        (asks2.as_bytes(), Refusal::Form { line: 17 }),
        (b"ask2,0,0,1\nleaf\nassume,a,0,0\n", Refusal::Form { line: 3 }),
        (b"ask2,0,0,65536\n", Refusal::Number { line: 1 }),
        (b"ask2,0,0,1\nleaf\nassume,a,0,16,9\n", Refusal::Number { line: 3 }),
        (b"ask2,0,0,1\nleaf\nassume,a,0,1,0\nfun,a\n", Refusal::Repeated { line: 4 }),
        (&long, Refusal::Size),
    ];
    let mut filter = Filter::new();
    for (file, refusal) in refused {
        assert_eq!(filter.run(file), Err(refusal));
    }
}

#[test]
fn a_refusal_is_an_error() {
    fn run(file: &[u8]) -> Result<u32, Box<dyn Error>> {
        Ok(Filter::new().run(file)?.lists()[0].rounds)
    }
    assert_eq!(run(WORKED).unwrap(), 2);
    assert_eq!(run(b"ask,0,16\n").unwrap_err().to_string(), "line 1: a field is no number, or one out of its range");
}

#[test]
fn lent_slices_come_back_as_said() {
    let lengths = [0, 1, 2, 3, 4, 5].map(|more| WORKING_WORDS + more);
    let (mut working, mut result) = lent(lengths, 6);
    assert_eq!(counts(WORKED, &mut working, &mut result), Ok(vec![(4, 4, 2)]));
    assert_eq!(result, [6, 11, 8, 7, DIRT, DIRT]);
    for words in &working {
        assert!(words[..WORKING_WORDS].iter().all(|&word| word == 0));
        assert!(words[WORKING_WORDS..].iter().all(|&word| word == DIRT));
    }
}

#[test]
fn the_lists_stand_end_to_end_in_the_result_slice() {
    let (mut working, mut result) = lent([WORKING_WORDS; 6], 5);
    let counts = wimplejade::filter(DAY, working.each_mut().map(Vec::as_mut_slice), &mut result).unwrap();
    assert_eq!(result, [9, 7, 10, DIRT, DIRT]);
    assert_eq!((counts.asks(), counts.words()), (3, 3));
    assert_eq!(counts.lists(&result).collect::<Vec<_>>(), [&[9][..], &[], &[7, 10]]);
}

#[test]
fn a_result_slice_of_exactly_the_kept_lines() {
    let (worked, day) = (vec![(4, 4, 2)], vec![(1, 2, 2), (0, 0, 1), (2, 2, 2)]);
    for (file, room, answer) in [
        (WORKED, 4, Ok(worked)),
        (WORKED, 3, Err(Refusal::Room { kept: 4 })),
        (WORKED, 0, Err(Refusal::Room { kept: 4 })),
        (DAY, 3, Ok(day)),
        (DAY, 2, Err(Refusal::Room { kept: 3 })),
        (DAY, 0, Err(Refusal::Room { kept: 3 })),
    ] {
        let (mut working, mut result) = lent([WORKING_WORDS; 6], room);
        assert_eq!(counts(file, &mut working, &mut result), answer);
        assert_eq!(result == vec![DIRT; room], answer.is_err());
    }
}

#[test]
fn a_short_working_slice_touches_nothing() {
    for short in 0..6 {
        let mut lengths = [WORKING_WORDS; 6];
        lengths[short] -= 1;
        let (mut working, mut result) = lent(lengths, 6);
        assert_eq!(counts(b"", &mut working, &mut result), Err(Refusal::Working));
        assert_eq!((working, result), lent(lengths, 6));
    }
}

#[test]
fn the_examples() {
    let Some(folder) = of_repository("examples") else { return };
    let mut filter = Filter::new();
    let mut count = 0;
    for entry in fs::read_dir(&folder).unwrap() {
        let path = entry.unwrap().path();
        if path.extension().is_some_and(|extension| extension == "in") {
            let expected = fs::read_to_string(path.with_extension("out")).unwrap();
            assert_eq!(filter.run(&fs::read(&path).unwrap()).unwrap().to_string(), expected, "{}", path.display());
            count += 1;
        }
    }
    assert!(count >= 4, "{count} examples");
}

#[test]
fn the_version_is_the_repositorys() {
    let Some(path) = of_repository("VERSION") else { return };
    assert_eq!(fs::read_to_string(path).unwrap().trim(), env!("CARGO_PKG_VERSION"));
}

#[test]
fn the_deepest_term_fits_the_stack() {
    let chain: String = (0..4_095).map(|term| format!("call,f,{term}\n")).collect();
    let file = format!("ask,0,0\nfree,p\n{chain}assume,a,0,4095\nroot,0,r,4095\n");
    let run = move || Filter::new().run(file.as_bytes()).map(|kept| kept.records().count());
    let thread = std::thread::Builder::new().stack_size(wimplejade::STACK_BYTES).spawn(run).unwrap();
    assert_eq!(thread.join().unwrap(), Ok(1));
}
