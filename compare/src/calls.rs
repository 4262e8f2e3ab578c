//! Files that are full of what the reasons, the second engine and the order check tell, and the slices and tables lent
//! for them.

use crate::case::Case;
use crate::edges::Edge;
use crate::limits;
use crate::text::{TermId, Text};
use crate::{Command, LONG_ENOUGH};

/// The facts of a file whose other record is a root.
const FACTS: usize = limits::RECORDS - 1;

/// The name that every fact of a chain waits for besides its own: the first one spelled, and the first in byte order.
const COMMON: &str = "!";

/// A chain of as many facts as there may be, of which each waits for the common name and for that of the one before,
/// and the last for two more: as many trigger entries as there may be. Facts stand in this order.
fn chain(mut text: Text, backwards: bool) -> Vec<u8> {
    let common: Vec<TermId> = [COMMON, "\"", "#"].map(|name| text.free(name)).into();
    let first = text.free("n");
    let goal = text.op("and", &[common[0], common[1], common[2], first]);
    text.root(0, "r", goal);
    let (mut before, mut facts) = (first, Vec::new());
    for index in 1..=FACTS {
        let next = text.free(format!("n{index:x}"));
        let group = if index == FACTS { [&common, &[before][..]].concat() } else { vec![common[0], before] };
        facts.push((index, text.all(next, &[group])));
        before = next;
    }
    if backwards {
        facts.reverse();
    }
    for (index, fact) in facts {
        text.assume(format!("n{index:x}"), 0, fact);
    }
    text.finish()
}

/// As many rows of reasons as there may be, of facts that come one round after the other.
pub fn most_reasons() -> Vec<u8> {
    chain(Text::ask(0, 0), false)
}

/// As many rows of reasons as there may be, of facts that all come in the first round.
pub fn most_reasons_of_a_round() -> Vec<u8> {
    let mut text = Text::ask(0, 0);
    let frees = ["s", "q", "p", "o"].map(|name| text.free(name));
    let goal = text.op("and", &frees);
    let fact = text.all(goal, &[frees[..2].to_vec()]);
    let last = text.all(goal, &[frees[..2].to_vec(), frees[2..].to_vec()]);
    text.root(0, "r", goal);
    for index in 1..FACTS {
        text.assume(format!("a{index:x}"), 0, fact);
    }
    text.assume("last", 0, last);
    text.finish()
}

/// As many passes as there may be, for each of so many ask lines: each pass adds one fact.
pub fn most_passes(asks: usize) -> Vec<u8> {
    chain(Text::asks(&vec![(0, 0); asks]), true)
}

/// As many rows of the order check as there may be: every record is a definition of the same six names, one of them
/// that of the last definition and the others without one.
pub fn most_needs() -> Vec<u8> {
    let mut text = Text::ask(0, 0);
    let names = ["z5", "z4", "z3", "z2", "z1", "z0"];
    let parts = names.map(|name| text.free(name));
    let body = text.op("other", &parts);
    for index in 1..limits::RECORDS {
        text.def(format!("d{index:x}"), body);
    }
    text.def("z0", body);
    text.finish()
}

/// Files at the edges of the three calls, each under its own name, with the number of its refusal.
pub fn edges() -> Vec<Edge> {
    let mut edges = Vec::new();
    let mut add = |name: &str, number: u32, case: Case| {
        let name = format!("{}-{name}", case.call.word());
        edges.push(Edge { case: Case { name, ..case }, number });
    };
    let file = b"ask,0,4\nalso,1\nfree,p\nop,eq,0,0\nassume,a,0,1\nassume,b,0,1\nfun,p\ndef,g,1\nroot,1,r,0\n";
    let short = [16_384, 16_384, 16_383, 16_384, 16_384, 16_384];
    let uneven = [16_384, 16_385, 16_386, 16_387, 16_388, 16_389];
    for call in [Command::Why(2), Command::Sweep, Command::Order] {
        let of = |file: &[u8]| Case::of(call, "", file.to_vec());
        let good = of(file);
        add("accepted", 0, good.clone());
        for index in 0..LONG_ENOUGH.len() {
            for (words, number) in [(0, 7), (16_383, 7), (16_385, 0)] {
                let mut works = LONG_ENOUGH;
                works[index] = words;
                add(&format!("work-{index}-{words}"), number, good.clone().with_works(works));
            }
        }
        add("works-none", 7, good.clone().with_works([0; 6]));
        add("works-uneven", 0, good.clone().with_works(uneven));
        add("works-uneven-refused", 3, of(b"ask,0,16\n").with_works(uneven));
        add("works-7-before-1", 7, of(b"").with_works(short));
        add("works-7-before-the-last-refusal", 7, good.with_works(short).with_room(0));
        add("bytes-9", 9, of(&[b'x'; limits::BYTES + 1]));
        add("empty-1", 1, of(b""));
        let mut seventeen = b"ask,0,0\n".repeat(limits::ASKS + 1);
        seventeen.extend_from_slice(b"leaf\n");
        add("asks-13", 13, of(&seventeen));
    }

    let why = |position: usize, file: &[u8]| Case::of(Command::Why(position), "", file.to_vec());
    for (rows, number) in [(0, 7), (1, 7), (2_047, 7), (2_048, 0), (2_049, 0), (4_096, 0)] {
        add(&format!("rows-{rows}"), number, why(1, file).with_room(rows));
    }
    for (position, number) in [(0, 15), (1, 0), (2, 0), (3, 15), (17, 15), (65_536, 15)] {
        add(&format!("position-{position}"), number, why(position, file));
    }
    add("bytes-1", 1, why(1, &[b'x'; limits::BYTES]));
    add("rows-7-before-9", 7, why(1, &[b'x'; limits::BYTES + 1]).with_room(2_047));
    add("rows-7-before-a-line", 7, why(1, b"ask\n").with_room(2_047));
    add("rows-7-before-15", 7, why(0, file).with_room(2_047));
    add("line-before-15", 1, why(0, b"ask\n"));
    add("works-7-before-15", 7, why(0, file).with_works(short));
    add("bytes-9-before-15", 9, why(0, &one_retain_line(limits::BYTES + 1)));
    add("bytes-15", 15, why(0, &one_retain_line(limits::BYTES)));
    add("most-rows", 0, why(1, &most_reasons()));
    add("most-rows-of-a-round", 0, why(1, &most_reasons_of_a_round()));
    add("most-rows-backwards", 0, why(1, &most_passes(1)).with_room(2_050));
    add("all-names-met", 0, why(1, &all_names_met()));

    let sweep = |file: &[u8]| Case::of(Command::Sweep, "", file.to_vec());
    for (room, number) in [(0, 8), (2, 8), (3, 0), (4, 0)] {
        add(&format!("room-{room}"), number, sweep(file).with_room(room));
    }
    add("room-a-line-before-8", 1, sweep(b"ask,0,0\nleaf\nassume,a,0,0\nleaf").with_room(0));
    add("room-0-none-kept", 0, sweep(b"ask,0,0\n").with_room(0));
    let two_lists = b"ask,1,0\nask,0,0\nfree,p\nfree,q\nleaf\nall,2,1,1,1\nassume,b,0,3\nall,1,1,1,0\nassume,a,0,4\n\
        assume,k,0,2\nroot,0,r,0\n";
    for (room, number) in [(3, 8), (4, 0), (5, 0)] {
        add(&format!("two-lists-room-{room}"), number, sweep(two_lists).with_room(room));
    }
    add("most-passes", 0, sweep(&most_passes(1)));
    for (room, number) in [(FACTS * 3 - 1, 8), (FACTS * 3, 0)] {
        add(&format!("most-passes-of-three-room-{room}"), number, sweep(&most_passes(3)).with_room(room));
    }
    add("fewest-passes", 0, sweep(&most_reasons()));

    let order = |file: &[u8]| Case::of(Command::Order, "", file.to_vec());
    let three = b"ask,0,0\nfree,x\nfree,h\nop,other,0,1\ndef,g,2\ndef,h,0\n";
    for (rows, number) in [(0, 8), (2, 8), (3, 0), (4, 0)] {
        add(&format!("rows-{rows}"), number, order(three).with_room(rows));
    }
    add("rows-a-line-before-8", 1, order(b"ask,0,0\nfree,x\ndef,g,0\nleaf").with_room(0));
    add("rows-0-none-listed", 0, order(b"ask,0,0\n").with_room(0));
    for (rows, number) in [(6_143, 8), (6_144, 0), (6_145, 0)] {
        add(&format!("most-rows-{rows}"), number, order(&most_needs()).with_room(rows));
    }
    edges
}

/// An ask line and a retain line: so many bytes, and no fault but their number.
fn one_retain_line(bytes: usize) -> Vec<u8> {
    let mut file = b"ask,0,0\nretain".to_vec();
    if bytes % 2 == 0 {
        file.extend_from_slice(b",aa");
    }
    file.extend(b",a".repeat((bytes - file.len()) / 2));
    file.push(b'\n');
    file
}

/// As many names as there may be, nearly all of them met, and a fact that waits for the last one.
fn all_names_met() -> Vec<u8> {
    let mut text = Text::ask(0, 0);
    let frees: Vec<TermId> = (0..limits::NAMES).map(|index| text.free(format!("{index:x}"))).collect();
    let all = text.op("and", &frees);
    text.root(0, "0", all);
    let fact = text.all(0, &[vec![frees[limits::NAMES - 1]]]);
    text.assume("1", 0, fact);
    text.finish()
}

#[cfg(test)]
mod tests {
    use std::collections::HashSet;

    use super::*;
    use crate::{order, sweep, why, Order, Refusal};

    /// The refusal of a case, with number and place 0 if it is accepted.
    fn refusal(case: &Case) -> Refusal {
        let Case { file, works, room, .. } = case;
        let refused = match case.call {
            Command::Why(position) => why(file, position, *works, *room).err(),
            Command::Sweep => sweep(file, *works, *room).err(),
            Command::Order => order(file, *works, *room).err(),
            Command::List => unreachable!("no case of the lists"),
        };
        refused.unwrap_or(Refusal { number: 0, place: 0 })
    }

    #[test]
    fn each_edge_is_refused_as_it_says() {
        let mut names = HashSet::new();
        for Edge { case, number } in edges() {
            let Refusal { number: actual, place } = refusal(&case);
            assert_eq!(actual, number, "{}", case.name);
            let is_at_0 = [0, 7, 9, 15].contains(&number);
            assert!(is_at_0 == (place == 0) && (number != 8 || place as usize > case.room), "{}", case.name);
            assert!(names.insert(case.name));
        }
    }

    #[test]
    fn full_files_are_full() {
        for file in [most_reasons(), most_reasons_of_a_round(), most_passes(1)] {
            let reasons = why(&file, 1, LONG_ENOUGH, limits::REASON_ROWS).unwrap();
            assert_eq!(reasons.rows.len(), limits::REASON_ROWS);
        }
        let file = most_passes(16);
        let lists = sweep(&file, LONG_ENOUGH, limits::ROOM).unwrap();
        assert_eq!(lists.len(), 16);
        assert!(lists.iter().all(|list| (list.lines.len(), list.passes) == (FACTS, FACTS as u32 + 1)));
        assert_eq!(sweep(&most_reasons(), LONG_ENOUGH, limits::ROOM).unwrap()[0].passes, 2);
        assert_eq!(order(&most_needs(), LONG_ENOUGH, limits::ORDER_ROWS).unwrap().0.len(), limits::ORDER_ROWS);
        let file = all_names_met();
        let met = why(&file, 1, LONG_ENOUGH, limits::REASON_ROWS).unwrap();
        assert_eq!((met.met as usize, met.rows.len()), (limits::NAMES, 1));
        assert_eq!(met.rows[0].row.number as usize, limits::NAMES - 1);
    }

    #[test]
    fn answers_are_those_of_the_commands() {
        for Edge { case, .. } in edges() {
            let printed = case.answer(Order::Source);
            assert!(printed.starts_with(&format!("case,{}\n", case.name)) && printed.ends_with("\nslices,ok\n"));
        }
    }
}
