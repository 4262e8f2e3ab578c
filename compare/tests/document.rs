//! The examples and edges of document 01, and of Changes 1, 6 to 8, 11 and 13 of document 02.

use compare::{filter, filter_file, filter_in, limits, summaries, Order, Outcome, Refusal, Trigger, LONG_ENOUGH};

fn refused(number: u32, place: u32) -> Outcome<'static> {
    Outcome::Refused { number, place }
}

/// The answer to a file that starts with `ask,0,0`.
fn answer(rest: &str) -> String {
    filter_file(format!("ask,0,0\n{rest}").as_bytes()).to_string()
}

#[test]
fn the_worked_example() {
    let file = "ask,0,4\nfree,p\nfree,q\ncall,f,0\nall,2,1,1,2\nassume,a1,0,3\nfun,f\ndef,g,1\ncall,g\nop,eq,4,1\n\
                assume,e1,0,5\nop,and,2,4\nroot,0,r,6\n";
    assert_eq!(filter_file(file.as_bytes()).to_string(), "kept,6,a1\nkept,11,e1\nkept,8,g\nkept,7,f\nsum,4,4,2\n");
}

#[test]
fn names_are_parts_of_the_file() {
    let file = b"ask,0,0\nleaf\nassume,a,0,0\n";
    assert_eq!(filter_file(file).lists()[0].names[0].as_ptr(), &file[20]);
}

#[test]
fn each_refusal_has_its_place() {
    for (file, number, place) in [
        ("", 1, 1),
        ("\n", 1, 1),
        ("ask,0,0", 1, 1),
        ("leaf\n", 1, 1),
        ("ask,0\n", 1, 1),
        ("ask,0,0,0\n", 1, 1),
        ("ask,0,0\nleaf\nask,0,0\n", 1, 3),
        ("ask,0,0\n\n", 1, 2),
        ("ask,0,0\nleaf\nleaf", 1, 3),
        ("ask,0,0\nop\n", 1, 2),
        ("ask,0,0\nop,or\n", 1, 2),
        ("ask,0,0\nfree,a b\n", 2, 2),
        ("ask,0,0\nfree,\n", 2, 2),
        ("ask,0,0\nretain,a,\n", 2, 2),
        ("ask,256,0\n", 3, 1),
        ("ask,0,16\n", 3, 1),
        ("ask,0,0\nleaf\nassume,a,2,0\n", 3, 3),
        ("ask,0,0\nleaf\nlabel,00\n", 3, 3),
        ("ask,0,0\nlabel,0\n", 4, 2),
        ("ask,0,0\nassume,a,0,0\n", 4, 2),
        ("ask,0,0\nleaf\nassume,a,0,0\nfun,b\ndef,a,0\n", 5, 5),
    ] {
        assert_eq!(filter_file(file.as_bytes()), refused(number, place), "{file:?}");
    }
}

#[test]
fn faults_are_found_in_order() {
    // The kind, then a fixed count, then the fields from the left, then a repeated name.
    assert_eq!(answer("leaf\nnone,,\n"), "refused,1,3\n");
    assert_eq!(answer("leaf\nassume,,2,9,\n"), "refused,1,3\n");
    assert_eq!(answer("leaf\nassume,,2,9\n"), "refused,2,3\n");
    assert_eq!(answer("leaf\nassume,a,2,9\n"), "refused,3,3\n");
    assert_eq!(answer("leaf\nfun,a\nassume,a,0,9\n"), "refused,4,4\n");
    assert_eq!(answer("leaf\nfun,a\nassume,a,0,0\n"), "refused,5,4\n");
    // Where the count is not fixed, a lacking field has its turn, and one left over comes last.
    assert_eq!(answer("leaf\nall,0,2,1,0\n"), "refused,1,3\n");
    assert_eq!(answer("leaf\nall,1,2,1,0\n"), "refused,4,3\n");
    assert_eq!(answer("leaf\nall,0,1,1,1,0\n"), "refused,4,3\n");
    assert_eq!(answer("leaf\nall,0,1,1,0,x\n"), "refused,1,3\n");
    // Lines from the first; a later line without 0A does not matter.
    assert_eq!(answer("label,0\nleaf"), "refused,4,2\n");
}

#[test]
fn a_refusal_says_what_was_full() {
    let names = |count: usize| -> String { (0..count).map(|index| format!(",n{index}")).collect() };
    let zeros = |count: usize| ",0".repeat(count);
    let lines = |line: &str, count: usize| format!("{line}\n").repeat(count);
    // Three roots with 2,047 free names each: 6,141 uses.
    let frees: String = (0..2_046).map(|index| format!("free,n{index}\n")).collect();
    let parts: String = (0..2_046).map(|term| format!(",{term}")).collect();
    let uses = format!("{frees}call,f{parts}\n{}", lines("root,0,f,2046", 3));
    for (rest, number, place) in [
        (format!("retain{}\n", names(2_049)), 6, 2),
        (lines("leaf", 4_097), 10, 4_098),
        (format!("leaf\nop,and{}\n", zeros(16_385)), 10, 3),
        (lines("retain", 1_025), 11, 1_026),
        (format!("leaf\nall,0,2049{}\nassume,a,0,1\n", zeros(2_049)), 12, 4),
        (format!("{uses}{}", lines("root,0,f,0", 4)), 12, 2_055),
        // The lowest number of a line that passes several.
        (format!("{}retain{}\n", lines("retain", 1_024), names(2_049)), 6, 1_026),
        (format!("leaf\n{}all,0,2049{}\nassume,a,0,1\n", lines("retain", 1_024), zeros(2_049)), 11, 1_028),
    ] {
        assert_eq!(answer(&rest), format!("refused,{number},{place}\n"));
    }
}

#[test]
fn hide_lines() {
    // They follow the ask line, have one name each, and may repeat it.
    for (rest, answered) in [
        ("hide,a\nhide,a\nhide,Valid\n", "sum,0,0,1\n"),
        ("hide,a\nleaf\nhide,b\n", "refused,1,4\n"),
        ("retain\nhide,a\n", "refused,1,3\n"),
        ("leaf\nhide,\n", "refused,1,3\n"),
        ("hide\n", "refused,1,2\n"),
        ("hide,a,a\n", "refused,1,2\n"),
        ("hide,\n", "refused,2,2\n"),
        ("hide,a\nfun,a\nfun,a\n", "refused,5,4\n"),
    ] {
        assert_eq!(answer(rest), answered, "{rest:?}");
    }
    // A hidden name is not waited for, not met, and not declared; without the hide line it is.
    let rest = "free,p\ncall,w,0\nall,0,1,1,1\nassume,a,0,2\nfun,p\nfun,w\nroot,0,r,0\n";
    let answer = |head: &str| filter_file(format!("{head}{rest}").as_bytes()).to_string();
    assert_eq!(answer("ask,0,4\nretain,w\n"), "kept,7,p\nsum,1,1,1\n");
    assert_eq!(answer("ask,0,4\nhide,w\n"), "kept,6,a\nkept,7,p\nsum,2,1,2\n");
    // They are record lines.
    let hides = |count: usize| "hide,a\n".repeat(count);
    assert_eq!(filter_file(format!("ask,0,0\n{}", hides(1_024)).as_bytes()).to_string(), "sum,0,0,1\n");
    assert_eq!(filter_file(format!("ask,0,0\n{}", hides(1_025)).as_bytes()), refused(11, 1_026));
    assert_eq!(filter_file(format!("ask,0,0\n{}fun,a\n", hides(1_024)).as_bytes()), refused(11, 1_026));
}

#[test]
fn several_ask_lines() {
    let rest = "free,p\nfree,q\nop,eq,0,0\nassume,a,0,2\nop,eq,1,1\nassume,b,0,3\nroot,0,r,0\nroot,1,r,1\n";
    let answer = |head: &str| filter_file(format!("{head}{rest}").as_bytes()).to_string();
    assert_eq!(answer("ask,1,0\n"), "kept,7,b\nsum,1,2,2\n");
    assert_eq!(answer("ask,1,0\nask,0,0\n"), "kept,8,b\nsum,1,2,2\nkept,6,a\nsum,1,2,2\n");
    assert_eq!(answer("ask,7,0\nask,1,0\nask,7,0\n"), "sum,0,0,1\nkept,9,b\nsum,1,2,2\nsum,0,0,1\n");
    // Sixteen, and then any line but an ask line; what a seventeenth is refused for is found right after its kind.
    let sixteen = "ask,0,0\n".repeat(16);
    assert_eq!(answer(&sixteen), "kept,20,a\nsum,1,2,2\n".repeat(16));
    assert_eq!(answer(&format!("{sixteen}hide,p\n")), "sum,0,0,1\n".repeat(16));
    for line in ["ask,0,0", "ask", "ask,", "ask,0,0,0", "ask,256,16"] {
        assert_eq!(answer(&format!("{sixteen}{line}\n")), "refused,13,17\n");
    }
    assert_eq!(filter_file(format!("{sixteen}ask,0,0").as_bytes()), refused(1, 17));
    assert_eq!(answer(&format!("{sixteen}hide,p\nask,0,0\n")), "refused,1,18\n");
    // Each has its own fields, and an earlier line is refused first.
    for (line, number) in [("ask", 1), ("ask,0", 1), ("ask,0,0,", 1), ("ask,256,0", 3), ("ask,0,16", 3)] {
        assert_eq!(answer(&format!("ask,0,0\n{line}\n{sixteen}")), format!("refused,{number},2\n"));
    }
    // Ask lines follow ask lines only.
    for line in ["hide,p", "leaf", "retain"] {
        assert_eq!(answer(&format!("ask,0,0\n{line}\nask,0,0\n")), "refused,1,3\n");
    }
    // The result slice holds all lists.
    let file = format!("ask,1,0\nask,7,0\nask,0,0\n{rest}");
    assert_eq!(filter(file.as_bytes(), LONG_ENOUGH, 1), refused(8, 2));
    assert_eq!(filter(file.as_bytes(), LONG_ENOUGH, 2).lines(), [9, 7]);
}

#[test]
fn also_lines() {
    let rest = "free,p\nfree,q\nop,eq,0,0\nassume,a,0,2\nop,eq,1,1\nassume,b,0,3\nroot,0,r,0\nroot,1,r,1\n";
    let answer = |head: &str| filter_file(format!("{head}{rest}").as_bytes()).to_string();
    let both = "kept,6,a\nkept,8,b\n";
    assert_eq!(answer("ask,1,0\nalso,0\n"), format!("kept,8,b\nsum,1,2,2\n{both}sum,2,2,2\n"));
    assert_eq!(answer("ask,1,0\nalso,1\n"), "kept,8,b\nsum,1,2,2\nkept,8,b\nsum,1,0,1\n");
    // An ask line starts anew.
    assert_eq!(answer("ask,9,0\nalso,1\nask,0,0\n"), "sum,0,0,1\nkept,9,b\nsum,1,2,2\nkept,7,a\nsum,1,2,2\n");
    // With the ask lines there are sixteen.
    let sixteen = format!("ask,0,0\n{}", "also,0\n".repeat(15));
    assert_eq!(answer(&sixteen), format!("kept,20,a\nsum,1,2,2\n{}", "kept,20,a\nsum,1,0,1\n".repeat(15)));
    for line in ["also,0", "also", "also,", "also,0,0", "also,256", "ask,0,0", "ask"] {
        assert_eq!(answer(&format!("{sixteen}{line}\n")), "refused,13,17\n");
        assert_eq!(answer(&format!("{}{line}\n", "ask,0,0\n".repeat(16))), "refused,13,17\n");
        assert_eq!(answer(&format!("{sixteen}hide,p\n{line}\n")), "refused,1,18\n");
    }
    assert_eq!(filter_file(format!("{sixteen}also,0").as_bytes()), refused(1, 17));
    for (line, number) in [("also", 1), ("also,0,0", 1), ("also,0,", 1), ("also,", 3), ("also,256", 3), ("also,00", 3)]
    {
        assert_eq!(answer(&format!("ask,0,0\n{line}\n")), format!("refused,{number},2\n"));
        // They follow ask and also lines only.
        assert_eq!(answer(&format!("{line}\n")), "refused,1,1\n");
        for before in ["hide,p", "leaf", "retain"] {
            assert_eq!(answer(&format!("ask,0,0\n{before}\n{line}\n")), "refused,1,3\n");
        }
    }
    // The result slice holds all lists.
    let file = format!("ask,1,0\nalso,0\nalso,7\n{rest}");
    assert_eq!(filter(file.as_bytes(), LONG_ENOUGH, 4), refused(8, 5));
    assert_eq!(filter(file.as_bytes(), LONG_ENOUGH, 5).lines(), [9, 7, 9, 7, 9]);
}

#[test]
fn groups_of_facts() {
    let rest =
        "free,p\nop,eq,0,0\nassume,a,0,0,1\nassume,b,0,1,1\nassume,c,0,15,1\nleaf\nassume,d,0,15,2\nroot,0,r,0\n";
    let answer = |head: &str| filter_file(format!("{head}{rest}").as_bytes()).to_string();
    assert_eq!(answer("ask2,0,0,0\n"), "sum,0,0,1\n");
    assert_eq!(answer("ask2,0,0,1\n"), "kept,4,a\nsum,1,2,2\n");
    assert_eq!(answer("ask2,0,0,2\n"), "kept,5,b\nsum,1,2,2\n");
    assert_eq!(answer("ask2,0,0,32768\n"), "kept,6,c\nkept,8,d\nsum,2,2,2\n");
    assert_eq!(answer("ask2,0,1,32771\n"), "kept,4,a\nkept,5,b\nkept,6,c\nsum,3,6,2\n");
    assert_eq!(answer("ask2,0,0,32764\n"), "sum,0,0,1\n");
    // Each ask has groups of its own, and an also line those of its ask.
    assert_eq!(
        answer("ask2,9,0,1\nalso,0\nask2,0,0,2\nask2,0,0,0\n"),
        "sum,0,0,1\nkept,7,a\nsum,1,2,2\nkept,8,b\nsum,1,2,2\nsum,0,0,1\n"
    );
    // The first line's form is that of every ask line, wherever one stands; it is found before there are too many.
    for (head, place) in [
        ("ask2,0,0,1\nask,0,0\n", 2),
        ("ask,0,0\nask2,0,0,1\n", 2),
        ("ask2,0,0,1\nalso,0\nask,256,16\n", 3),
        ("ask,0,0\nalso,0\nask2\n", 3),
        ("ask2,0,0,1\nhide,p\nask,0,0\n", 3),
    ] {
        assert_eq!(answer(head), format!("refused,1,{place}\n"), "{head:?}");
    }
    for (same, other) in [("ask,0,0\n", "ask2,0,0,1\n"), ("ask2,0,0,1\n", "ask,0,0\n")] {
        assert_eq!(answer(&format!("{}{other}", same.repeat(16))), "refused,1,17\n");
        assert_eq!(answer(&format!("{}{same}", same.repeat(16))), "refused,13,17\n");
    }
    // Fields of the head.
    for (line, number) in [
        ("ask2", 1),
        ("ask2,0,0", 1),
        ("ask2,0,0,0,0", 1),
        ("ask2,0,0,65536", 3),
        ("ask2,0,0,", 3),
        ("ask2,0,0,01", 3),
        ("ask2,0,16,0", 3),
        ("ask3,0,0,0", 1),
    ] {
        assert_eq!(answer(&format!("{line}\n")), format!("refused,{number},1\n"), "{line}");
    }
    // The group stands between flag and term, and is judged there.
    let answer = |line: &str| filter_file(format!("ask2,0,0,1\nleaf\nfun,f\n{line}\n").as_bytes()).to_string();
    for (line, number) in [
        ("assume,a,0,0", 1),
        ("assume,a,0,0,0,0", 1),
        ("assume,,0,16,9", 2),
        ("assume,a,2,16,9", 3),
        ("assume,a,0,16,9", 3),
        ("assume,a,0,,9", 3),
        ("assume,a,0,00,9", 3),
        ("assume,f,0,15,9", 4),
        ("assume,f,0,15,0", 5),
        ("def,d,0,0", 1),
        ("root,0,0,r,0", 1),
    ] {
        assert_eq!(answer(line), format!("refused,{number},4\n"), "{line}");
    }
    assert_eq!(answer("assume,a,0,15,0"), "sum,0,0,1\n");
}

#[test]
fn a_fact_that_is_not_admitted_counts_for_limits() {
    let zeros = |count: usize| ",0".repeat(count);
    for groups in [0, 1, 65_535] {
        let refused = |rest: &str, number: u32, place: u32| {
            let file = format!("ask2,0,0,{groups}\nfree,p\n{rest}");
            assert_eq!(filter_file(file.as_bytes()), Outcome::Refused { number, place }, "{groups}");
        };
        refused("assume,a,0,0,0\nassume,a,0,1,0\n", 5, 4);
        refused(&format!("all,0,2049{}\nassume,a,0,7,1\n", zeros(2_049)), 12, 4);
        let names: String = (0..2_047).map(|index| format!(",n{index}")).collect();
        refused(&format!("retain{names}\nassume,a,0,7,0\n"), 6, 4);
        let facts: String = (0..1_025).map(|index| format!("assume,a{index},0,7,0\n")).collect();
        refused(&facts, 11, 1_027);
    }
}

#[test]
fn bodies_are_followed() {
    let rest = "free,f\nfree,h\nfree,g\ndef,g,1\nop,other,0,2\ndef,h,3\nfun,f\nroot,0,r,2\n";
    let answer = |options: u32| filter_file(format!("ask,0,{options}\n{rest}").as_bytes()).to_string();
    for options in 0..=limits::OPTIONS {
        let kept = match options & 12 {
            4 => "kept,5,g\nsum,1,0,1\n",
            12 => "kept,5,g\nkept,7,h\nkept,8,f\nsum,3,0,1\n",
            _ => "sum,0,0,1\n",
        };
        assert_eq!(answer(options), kept, "{options}");
    }
    assert_eq!(answer(16), "refused,3,1\n");
    // Hidden names are not followed.
    let hiding = format!("ask,0,12\nhide,h\n{rest}");
    assert_eq!(filter_file(hiding.as_bytes()).to_string(), "kept,6,g\nsum,1,0,1\n");
}

#[test]
fn the_callers_refusals() {
    let file = b"ask,0,0\nleaf\nassume,a,0,0\nassume,b,0,0\n";
    for index in 0..6 {
        let mut works = LONG_ENOUGH;
        works[index] -= 1;
        assert_eq!(filter(file, works, 2), refused(7, 0));
        assert_eq!(filter(&[0; 70_000], works, 0), refused(7, 0));
    }
    assert_eq!(filter(&[0; 65_536], LONG_ENOUGH, 0), refused(9, 0));
    assert_eq!(filter(&[0; 65_535], LONG_ENOUGH, 0), refused(1, 1));
    assert_eq!(filter(file, LONG_ENOUGH, 1), refused(8, 2));
    assert_eq!(filter(&file[..30], LONG_ENOUGH, 0), refused(1, 4));
    assert_eq!(filter(file, LONG_ENOUGH, 2).lines(), [4, 3]);
}

#[test]
fn definitions_and_declarations_in_both_orders() {
    let file = b"ask,0,4\nfree,a\nfree,b\nfun,a\nfun,b\nop,other,0,1\nroot,0,r,2\n";
    let lines = |order| filter_in(order, file, LONG_ENOUGH, 2).lines();
    assert_eq!(lines(Order::Source), [5, 4]);
    assert_eq!(lines(Order::Line), [4, 5]);
}

#[test]
fn summaries_of_a_file() {
    let file = b"ask,0,0\nfree,q\nfree,p\nall,0,2,0,2,0,1\nassume,a,0,2\nop,true\nassume,b,0,3\n";
    let summaries = summaries(file).unwrap();
    assert_eq!(summaries[0].trigger, Trigger::Names(vec![vec![], vec![b"p", b"q"]]));
    assert_eq!(summaries[0].free, [b"p", b"q"]);
    assert_eq!(summaries[1].trigger, Trigger::Drop);
    assert_eq!(summaries[0].to_string(), "fact,5,triggers,{},{p q} free={p q}\n");
    assert_eq!(compare::summaries(b"ask"), Err(Refusal { number: 1, place: 1 }));
}
