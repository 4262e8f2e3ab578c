//! Cases: a file with the lengths of the slices lent for it, and a container for many of them.
//!
//! In the container each case has a head line, then `LENGTH` bytes of file. The first word of the head line says the call:
//!
//!     case,NAME,LENGTH,W0,W1,W2,W3,W4,W5,ROOM
//!     why,NAME,LENGTH,W0,W1,W2,W3,W4,W5,ROWS,POSITION
//!     sweep,NAME,LENGTH,W0,W1,W2,W3,W4,W5,ROOM
//!     order,NAME,LENGTH,W0,W1,W2,W3,W4,W5,ROWS

use std::io::{self, Write};

use crate::limits;
use crate::reader::{self, Form};
use crate::text::{Position, Text};
use crate::{Command, Order, LONG_ENOUGH};

/// A file, a call, and the lengths of the slices lent for it.
#[derive(Clone, Debug, PartialEq, Eq)]
pub struct Case {
    pub name: String,
    pub call: Command,
    pub file: Vec<u8>,
    /// Words of the six working slices.
    pub works: [usize; 6],
    /// Words of the result slice, or rows of the table.
    pub room: usize,
}

impl Case {
    /// A case of the lists whose slices are long enough.
    pub fn new(name: impl Into<String>, file: Vec<u8>) -> Self {
        Case::of(Command::List, name, file)
    }

    /// A case of a call whose slices are long enough.
    pub fn of(call: Command, name: impl Into<String>, file: Vec<u8>) -> Self {
        Case { name: name.into(), call, file, works: LONG_ENOUGH, room: call.room() }
    }

    /// The same case with other working slices.
    pub fn with_works(self, works: [usize; 6]) -> Self {
        Case { works, ..self }
    }

    /// The same case with another result slice or table.
    pub fn with_room(self, room: usize) -> Self {
        Case { room, ..self }
    }

    /// Writes the head line and the file.
    pub fn write(&self, out: &mut impl Write) -> io::Result<()> {
        write!(out, "{},{},{}", head_word(self.call), self.name, self.file.len())?;
        for words in self.works {
            write!(out, ",{words}")?;
        }
        write!(out, ",{}", self.room)?;
        if let Command::Why(position) = self.call {
            write!(out, ",{position}")?;
        }
        writeln!(out)?;
        out.write_all(&self.file)
    }

    /// What the program `test_cases` prints for the case.
    pub fn answer(&self, order: Order) -> String {
        let answer = self.call.printed_in(order, &self.file, self.works, self.room);
        format!("case,{}\n{answer}slices,ok\n", self.name)
    }

    /// The same with the three numbers of a row alone.
    pub fn answer_in_numbers(&self, order: Order) -> String {
        let line = |line: &str| match line.match_indices(',').nth(3) {
            Some((end, _)) if line.starts_with("row,") => format!("{}\n", &line[..end]),
            _ => format!("{line}\n"),
        };
        self.answer(order).lines().map(line).collect()
    }
}

/// The first word of the head line of a case.
fn head_word(call: Command) -> &'static str {
    match call {
        Command::List => "case",
        _ => call.word(),
    }
}

/// The most names and the most bytes of a file that is worth probing.
const PROBED_NAMES: usize = 16;
const PROBED_BYTES: usize = 5_000;

/// An accepted file once more for each of its names, with a root that has that name alone, and with roots for all names
/// but that one. This shows each name of each disjunct in the answers. Every ask line asks for these roots, with its own
/// options and groups, and so does every also line: where one follows an ask line, that asks for a query without roots, so
/// that the first stretch meets the names. The file's own roots are of other queries.
///
/// There are none for a file with very many names or bytes, or without facts.
pub fn probes(case: &Case) -> Vec<Case> {
    if case.file.len() > PROBED_BYTES {
        return Vec::new();
    }
    let Ok(background) = reader::read(&case.file) else { return Vec::new() };
    let count = background.names.len();
    let is_rootless = |query: &u32| background.roots.iter().all(|root| root.query != *query);
    let mut rootless = (0..=limits::QUERY).rev().filter(is_rootless);
    let queries = (rootless.next(), rootless.next());
    let ((Some(query), Some(none)), 1..=PROBED_NAMES, false) = (queries, count, background.facts.is_empty()) else {
        return Vec::new();
    };
    let asks = &background.asks;
    let asked = |ask: &reader::Ask, query: u32| match background.form {
        Some(Form::Newer) => Position::Ask2(query, ask.options(), ask.groups),
        _ => Position::Ask(query, ask.options()),
    };
    let position = |(index, ask): (usize, &reader::Ask)| match asks.get(index + 1) {
        _ if ask.is_also() => Position::Also(query),
        Some(next) if next.is_also() => asked(ask, none),
        _ => asked(ask, query),
    };
    let positions: Vec<Position> = asks.iter().enumerate().map(position).collect();
    let mut lines = Text::positions(&positions).finish();
    let rest = case.file.split_inclusive(|&byte| byte == b'\n').skip(background.asks.len());
    rest.for_each(|line| lines.extend_from_slice(line));

    // The empty name, which a token can leave, can't be spelled.
    let names: Vec<&[u8]> = (0..count).map(|id| background.names.bytes(id)).filter(|name| !name.is_empty()).collect();
    let probe = |sort: &str, index: usize, probed: &mut dyn Iterator<Item = &&[u8]>| {
        let mut file = lines.clone();
        for (number, name) in probed.enumerate() {
            file.extend_from_slice(b"free,");
            file.extend_from_slice(name);
            file.extend_from_slice(format!("\nroot,{query},probe,{}\n", background.terms.len() + number).as_bytes());
        }
        Case::new(format!("{}-{sort}-{index}", case.name), file)
    };
    let one = |index: usize| probe("with", index, &mut names[index..=index].iter());
    let others = |index: usize| probe("without", index, &mut names[..index].iter().chain(&names[index + 1..]));
    (0..names.len()).map(one).chain((0..names.len()).map(others)).collect()
}

/// The cases of a container, or `None` if it is not of that form.
pub fn read_all(mut bytes: &[u8]) -> Option<Vec<Case>> {
    let mut cases = Vec::new();
    while !bytes.is_empty() {
        let end = bytes.iter().position(|&byte| byte == b'\n')?;
        let head = std::str::from_utf8(&bytes[..end]).ok()?;
        let mut fields = head.split(',');
        let (word, name) = (fields.next()?, fields.next()?.to_owned());
        let mut numbers: Vec<usize> = fields.map(|field| field.parse().ok()).collect::<Option<_>>()?;
        let call = match word {
            "case" => Command::List,
            "why" => Command::Why(numbers.pop()?),
            "sweep" => Command::Sweep,
            "order" => Command::Order,
            _ => return None,
        };
        let [length, works @ .., room] = numbers.as_slice() else { return None };
        let file = bytes[end + 1..].get(..*length)?.to_vec();
        bytes = &bytes[end + 1 + length..];
        cases.push(Case { name, call, file, works: works.try_into().ok()?, room: *room });
    }
    Some(cases)
}

#[cfg(test)]
mod tests {
    use super::*;

    #[test]
    fn a_container_is_read_as_written() {
        let cases = [
            Case::new("empty", Vec::new()),
            Case::new("newlines", b"\n\ncase,\n".to_vec()).with_room(0),
            Case::new("short", b"ask,0,0\n".to_vec()).with_works([1, 2, 3, 4, 5, 6]),
            Case::of(Command::Why(3), "reasons", b"ask,0,0\n".to_vec()).with_room(2_047),
            Case::of(Command::Sweep, "swept", b"why,\n".to_vec()),
            Case::of(Command::Order, "order", b"ask,0,0\n".to_vec()).with_room(0),
        ];
        let mut bytes = Vec::new();
        for case in &cases {
            case.write(&mut bytes).unwrap();
        }
        assert_eq!(read_all(&bytes).as_deref(), Some(&cases[..]));
        bytes.pop();
        assert_eq!(read_all(&bytes), None);
    }

    #[test]
    fn probes_tell_disjuncts_apart() {
        let answers = |disjuncts: &str| -> Vec<String> {
            let file = format!("ask,7,0\nfree,p\nfree,q\nleaf\nall,2,{disjuncts}\nassume,a,0,3\nroot,7,r,1\n");
            probes(&Case::new("x", file.into_bytes())).iter().map(|probe| probe.answer(Order::Source)).collect()
        };
        let both = answers("1,2,0,1");
        assert_eq!(both.len(), 8);
        assert_eq!(both[0], "case,x-with-0\nsum,0,1,1\nslices,ok\n");
        assert_eq!(both[4], "case,x-without-0\nsum,0,1,1\nslices,ok\n");
        assert_eq!(both[6], "case,x-without-2\nkept,6,a\nsum,1,2,2\nslices,ok\n");
        for other in ["2,1,0,1,1", "1,1,0", "2,0,2,0,1", "1,0", "0"] {
            assert_ne!(answers(other), both, "{other}");
        }
        assert!(probes(&Case::new("refused", b"ask".to_vec())).is_empty());
    }

    #[test]
    fn probes_ask_with_each_options_number() {
        let file = b"ask,0,0\nask,255,4\nfree,p\nfun,p\nop,eq,0,0\nassume,a,0,1\nroot,0,r,0\n";
        let probes = probes(&Case::new("x", file.to_vec()));
        assert!(probes.iter().all(|probe| probe.file.starts_with(b"ask,255,0\nask,255,4\nfree,p\n")));
        let answer = "case,x-with-0\nkept,6,a\nsum,1,2,2\nkept,6,a\nkept,4,p\nsum,2,2,2\nslices,ok\n";
        assert_eq!(probes[0].answer(Order::Source), answer);
    }

    #[test]
    fn probes_ask_with_the_groups_of_each_ask() {
        let file = b"ask2,0,0,2\nask2,0,4,1\nfree,p\nfun,p\nop,eq,0,0\nassume,a,0,1,1\nroot,0,r,0\n";
        let probes = probes(&Case::new("x", file.to_vec()));
        assert!(probes.iter().all(|probe| probe.file.starts_with(b"ask2,255,0,2\nask2,255,4,1\nfree,p\n")));
        let answer = "case,x-with-0\nkept,6,a\nsum,1,2,2\nkept,4,p\nsum,1,0,1\nslices,ok\n";
        assert_eq!(probes[0].answer(Order::Source), answer);
    }

    #[test]
    fn probes_are_met_in_a_stretch() {
        let file = b"ask,0,0\nalso,9\nalso,0\nask,1,0\nfree,p\nop,eq,0,0\nassume,a,0,1\nroot,0,r,0\n";
        let probes = probes(&Case::new("x", file.to_vec()));
        assert!(probes
            .iter()
            .all(|probe| probe.file.starts_with(b"ask,254,0\nalso,255\nalso,255\nask,255,0\nfree,p\n")));
        let lists = "sum,0,0,1\nkept,7,a\nsum,1,2,2\nkept,7,a\nsum,1,0,1\nkept,7,a\nsum,1,2,2\n";
        assert_eq!(probes[0].answer(Order::Source), format!("case,x-with-0\n{lists}slices,ok\n"));
    }

    #[test]
    fn answers() {
        let case = Case::new("accepted", b"ask,0,0\nleaf\nassume,a,0,0\n".to_vec());
        assert_eq!(case.answer(Order::Source), "case,accepted\nkept,3,a\nsum,1,0,1\nslices,ok\n");
        assert_eq!(case.with_room(0).answer(Order::Source), "case,accepted\nrefused,8,1\nslices,ok\n");
        let of_call =
            |call, rest: &str| Case::of(call, "x", format!("ask,0,0\nfree,p\n{rest}root,0,r,0\n").into_bytes());
        let case = of_call(Command::Why(1), "op,eq,0,0\nassume,a,0,1\n");
        assert_eq!(case.answer(Order::Source), "case,x\nrow,4,0,5,a,p,r\nmet,1\nrows,1\nslices,ok\n");
        assert_eq!(case.answer_in_numbers(Order::Source), "case,x\nrow,4,0,5\nmet,1\nrows,1\nslices,ok\n");
        assert_eq!(case.with_room(2_047).answer(Order::Source), "case,x\nrefused,7,0\nslices,ok\n");
        let case = of_call(Command::Sweep, "op,eq,0,0\nassume,a,0,1\n");
        assert_eq!(case.answer_in_numbers(Order::Source), "case,x\nkept,4,a\npass,1,2\nslices,ok\n");
        let case = of_call(Command::Order, "def,g,0\n");
        assert_eq!(case.answer_in_numbers(Order::Source), "case,x\nrow,3,0,2\nrows,1\nslices,ok\n");
        assert_eq!(case.with_room(0).answer(Order::Source), "case,x\nrefused,8,1\nslices,ok\n");
        let case = Case::new("two", b"ask,0,0\nask,0,1\nleaf\nassume,a,0,0\n".to_vec());
        assert_eq!(case.answer(Order::Source), "case,two\nkept,4,a\nsum,1,0,1\nsum,0,0,1\nslices,ok\n");
    }
}
