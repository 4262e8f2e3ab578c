//! The proved fact filter.
//!
//! A file holds terms, facts over them, definitions, declarations, and the roots of queries. For each of its ask and also
//! lines the filter keeps the facts that the roots asked for can touch, as F*'s context pruning does, with option 4 also
//! the definitions and declarations that come with them, and with options 4 and 8 those that their bodies need.
//! `docs/FORMAT.md` of the repository describes the file; the filter itself is proved in Rattle and linked here as an
//! archive, for x86-64 Linux.
//!
//! ```
//! let file = b"ask,0,0\nfree,p\nleaf\nall,1,1,1,0\nassume,fact,0,2\nroot,0,goal,0\n";
//!
//! let mut filter = wimplejade::Filter::new();
//! for record in filter.run(file)? {
//!     assert_eq!((record.line, record.name, record.name_str()), (5, &b"fact"[..], "fact"));
//! }
//!
//! let refusal = filter.run(b"ask,0,16\n").unwrap_err();
//! assert_eq!(refusal.to_string(), "line 1: a field is no number, or one out of its range");
//! # Ok::<(), wimplejade::Refusal>(())
//! ```
//!
//! A file may begin with up to [`MOST_ASKS`] ask and also lines. One run answers them all: there is a [`List`] for each, in
//! their sequence, with its counts.
//!
//! ```
//! let file = b"ask,0,0\nask,1,0\nfree,p\nfree,q\nop,eq,0,0\nassume,on_p,0,2\nop,eq,1,1\nassume,on_q,0,3\n\
//!     root,0,goal,0\nroot,1,goal,1\n";
//!
//! let mut filter = wimplejade::Filter::new();
//! let kept = filter.run(file)?;
//! for (list, name) in kept.lists().iter().zip(["on_p", "on_q"]) {
//!     assert_eq!((list.records.len(), list.visits, list.rounds), (1, 2, 2));
//!     assert_eq!(list.records[0].name_str(), name);
//! }
//! assert_eq!(kept.list(2).map(|list| list.records[0].line), Some(8));
//! # Ok::<(), wimplejade::Refusal>(())
//! ```
//!
//! A line `also,QUERY` goes on from the list of the line before, with the roots of one more query. Its list is that of all
//! roots so far, its visits and rounds are those of its own stretch.
//!
//! ```
//! let file = b"ask,0,0\nalso,1\nfree,p\nfree,q\nop,eq,0,0\nassume,on_p,0,2\nop,eq,1,1\nassume,on_q,0,3\n\
//!     root,0,goal,0\nroot,1,goal,1\n";
//!
//! let mut filter = wimplejade::Filter::new();
//! let kept = filter.run(file)?;
//! let lines: Vec<Vec<u32>> = kept.lists().iter().map(|list| list.lines().collect()).collect();
//! assert_eq!(lines, [vec![6], vec![6, 8]]);
//! assert_eq!(kept.list(2).map(|list| (list.visits, list.rounds)), Some((2, 2)));
//! # Ok::<(), wimplejade::Refusal>(())
//! ```
//!
//! Facts can have groups: in a file of the newer form ask lines are `ask2,QUERY,OPTIONS,GROUPS` and facts
//! `assume,NAME,FLAG,GROUP,TERM`, with a group from 0 to 15. Bit k of GROUPS admits group k, and a fact of another group is not
//! there for that ask and the also lines after it.
//!
//! ```
//! let file = b"ask2,0,0,1\nask2,0,0,2\nask2,0,0,3\nfree,p\nop,eq,0,0\nassume,a,0,0,1\nassume,b,0,1,1\nroot,0,goal,0\n";
//!
//! let mut filter = wimplejade::Filter::new();
//! let kept = filter.run(file)?;
//! let lines: Vec<Vec<u32>> = kept.lists().iter().map(|list| list.lines().collect()).collect();
//! assert_eq!(lines, [vec![6], vec![7], vec![6, 7]]);
//! # Ok::<(), wimplejade::Refusal>(())
//! ```
//!
//! [`Filter::why`] says why each fact came along: which of the names that it waits for were met, and which item supplied them.
//!
//! ```
//! let file = b"ask,0,0\nfree,p\nfree,q\nall,1,1,1,0\nassume,on_p,0,2\nall,0,1,1,1\nassume,on_q,0,3\nroot,0,goal,0\n";
//!
//! let mut filter = wimplejade::Filter::new();
//! let reasons = filter.why(file, 1)?;
//! for (reason, told) in reasons.chain(7).iter().zip(["on_q: q from on_p", "on_p: p from goal"]) {
//!     assert_eq!(format!("{}: {} from {}", reason.fact, reason.name_str(), reason.supplier), told);
//! }
//! assert_eq!((reasons.round(7), reasons.met()), (Some(2), 2));
//! # Ok::<(), wimplejade::Refusal>(())
//! ```
//!
//! [`Filter::sweep`] gives the lists of [`Filter::run`] by a second engine, which passes over all facts by line until a pass
//! adds none, and tells its passes.
//!
//! ```
//! let file = b"ask,0,0\nfree,p\nfree,q\nall,0,1,1,1\nassume,on_q,0,2\nall,1,1,1,0\nassume,on_p,0,3\nroot,0,goal,0\n";
//!
//! let mut filter = wimplejade::Filter::new();
//! let swept = filter.sweep(file)?;
//! assert_eq!((swept.lists()[0].records.len(), swept.lists()[0].passes), (2, 3));
//! assert_eq!(swept.lists()[0].records, filter.run(file)?.lists()[0].records);
//! # Ok::<(), wimplejade::Refusal>(())
//! ```
//!
//! [`Filter::order`] lists what the bodies of definitions name too early: what has its `def` or `fun` on the same line or
//! below, and what has neither.
//!
//! ```
//! let file = b"ask,0,0\nfree,x\nfree,h\nop,other,0,1\ndef,g,2\nfun,h\n";
//!
//! let mut filter = wimplejade::Filter::new();
//! let late = filter.order(file)?;
//! for (need, told) in late.all().iter().zip(["g, h: 1", "g, x: 2"]) {
//!     assert_eq!(format!("{}, {}: {}", need.def, need.name_str(), need.sort.number()), told);
//! }
//! assert!(!late.is_in_order());
//! # Ok::<(), wimplejade::Refusal>(())
//! ```
//!
//! What is proved are the calls, [`answer`], [`why_answer`], [`sweep_answer`] and [`order_answer`], over slices that their
//! caller lends. [`filter`], [`why`], [`sweep`] and [`order`] give their answers as a `Result`, [`Filter`] lends them slices of
//! its own and finds the names of lines and numbers; these and the declarations of the C functions are plain Rust.
//!
//! # Stack and time
//!
//! A call takes 112 bytes of stack for each level of the deepest term, of which there can be 4,096: 460,488 bytes were
//! measured at most. [`STACK_BYTES`], 2 MB, is enough for every file; a thread that Rust starts has as much unless it is told
//! otherwise. A thread with less may end the process, as every overflow of the stack does.
//!
//! A file that looks like an export, with one ask line, takes 10 to 350 microseconds, the worst file known 0.2 to 0.5
//! seconds, as measured with the older toolchain.

#![deny(missing_docs)]

mod call;
mod names;
mod order;
mod refusal;
mod sweep;
mod why;

pub use call::{answer, filter, Answer, Counts};
pub use names::Names;
pub use order::{order, order_answer, Late, Need, OrderAnswer, Sort, MOST_LATE_ROWS};
pub use refusal::Refusal;
pub use sweep::{sweep, sweep_answer, SweepAnswer, SweepCounts, Swept, SweptList};
pub use why::{why, why_answer, Reason, Reasons, Row, WhyAnswer, WhyCounts, MOST_ROWS};

use std::fmt;

/// Words that each working slice must have.
pub const WORKING_WORDS: usize = 16_384;

/// The ask and also lines that a file may have, together: so many lists an answer can have. Ask lines are spelled `ask` or,
/// in a file whose facts have groups, `ask2`.
pub const MOST_ASKS: usize = 16;

/// The record lines that a file may have: so many lines one list can have.
pub const MOST_RECORDS: usize = 1_024;

/// The most lines that an accepted file can keep, in all lists. It is proved that a call over a result slice of so many
/// words, or more, is never refused with [`Refusal::Room`].
pub const MOST_KEPT: usize = MOST_ASKS * MOST_RECORDS;

/// The bytes that a file may have.
pub const MOST_BYTES: usize = 65_535;

/// Stack, in bytes, that is enough for every call.
pub const STACK_BYTES: usize = 2 << 20;

/// A filter with the slices that a call needs, some 460 KB, and a table once it is needed. It can run any number of files, one
/// after the other.
#[derive(Clone, Debug)]
pub struct Filter {
    working: [Vec<u32>; 6],
    result: Vec<u32>,
    rows: Vec<Row>,
}

impl Filter {
    /// A filter whose slices are long enough for every file.
    #[must_use]
    pub fn new() -> Self {
        let working = std::array::from_fn(|_| vec![0; WORKING_WORDS]);
        Filter { working, result: vec![0; MOST_KEPT], rows: Vec::new() }
    }

    /// Filters a file, for all its ask and also lines.
    ///
    /// # Errors
    ///
    /// The file is refused, for all its ask and also lines: see [`Refusal`]. [`Refusal::Working`] and [`Refusal::Room`] do
    /// not occur, since the slices are long enough.
    pub fn run<'f>(&mut self, file: &'f [u8]) -> Result<Kept<'f>, Refusal> {
        let counts = filter(file, self.working.each_mut().map(Vec::as_mut_slice), &mut self.result)?;
        let lines: Vec<&[u8]> = file.split(|&byte| byte == b'\n').collect();
        let list = |(index, kept): (usize, &[u32])| List {
            records: kept.iter().map(|&line| record_on(&lines, line)).collect(),
            visits: counts.visits[index],
            rounds: counts.rounds[index],
        };
        Ok(Kept { lists: counts.lists(&self.result).enumerate().map(list).collect() })
    }
}

impl Default for Filter {
    fn default() -> Self {
        Filter::new()
    }
}

/// The record on a line: the name of an assume, def or fun line is its second field, that of a root line its third.
fn record_on<'f>(lines: &[&'f [u8]], line: u32) -> Record<'f> {
    let mut fields = lines[line as usize - 1].split(|&byte| byte == b',');
    let before = usize::from(fields.next() == Some(b"root"));
    Record { line, name: fields.nth(before).expect("a line that is told is an assume, def, fun or root line") }
}

/// What a file keeps: a list for each of its ask and also lines.
///
/// It can be iterated over, which gives the records of all lists end to end: for a file with one ask line, those that it
/// keeps.
#[derive(Clone, Debug, PartialEq, Eq)]
#[must_use]
pub struct Kept<'f> {
    lists: Vec<List<'f>>,
}

impl<'f> Kept<'f> {
    /// The list of each ask and also line, in their sequence. There is at least one, and that of line 1 is the first.
    pub fn lists(&self) -> &[List<'f>] {
        &self.lists
    }

    /// The list of the ask or also line at a position, which is counted from 1 as lines are: position 2 is line 2.
    #[must_use]
    pub fn list(&self, position: usize) -> Option<&List<'f>> {
        self.lists.get(position.checked_sub(1)?)
    }

    /// The records of all lists, end to end.
    pub fn records(&self) -> impl Iterator<Item = &Record<'f>> + '_ {
        self.into_iter()
    }

    /// The line numbers of the records of all lists, end to end.
    pub fn lines(&self) -> impl Iterator<Item = u32> + '_ {
        self.records().map(|record| record.line)
    }

    /// The names of the records of all lists, end to end.
    pub fn names(&self) -> impl Iterator<Item = &'f [u8]> + '_ {
        self.records().map(|record| record.name)
    }
}

/// As the program `factfilter` prints it: the lists one after the other.
impl fmt::Display for Kept<'_> {
    fn fmt(&self, out: &mut fmt::Formatter) -> fmt::Result {
        self.lists.iter().try_for_each(|list| list.fmt(out))
    }
}

impl<'f> IntoIterator for Kept<'f> {
    type Item = Record<'f>;
    type IntoIter = std::iter::Flatten<std::vec::IntoIter<List<'f>>>;

    fn into_iter(self) -> Self::IntoIter {
        self.lists.into_iter().flatten()
    }
}

impl<'k, 'f> IntoIterator for &'k Kept<'f> {
    type Item = &'k Record<'f>;
    type IntoIter = std::iter::Flatten<std::slice::Iter<'k, List<'f>>>;

    fn into_iter(self) -> Self::IntoIter {
        self.lists.iter().flatten()
    }
}

/// What one ask or also line keeps. It can be iterated over, which gives its records in their order.
#[derive(Clone, Debug, PartialEq, Eq)]
#[must_use]
#[non_exhaustive]
pub struct List<'f> {
    /// The kept records in their order: the reached facts by name in byte order, then the ambient facts, last filed first;
    /// with option 4 the definitions and then the declarations, each group in the order of F*'s pruning. Those that option 8
    /// adds stand at the end of their group, by name in byte order.
    pub records: Vec<Record<'f>>,
    /// The filed trigger entries whose name was met; of an also line those whose name is first met in its stretch. Those of
    /// facts that are not admitted do not count.
    pub visits: u32,
    /// The rounds of the run, of an also line those of its stretch; the last one triggers no fact.
    pub rounds: u32,
}

impl<'f> List<'f> {
    /// The line numbers of the kept records, in their order.
    pub fn lines(&self) -> impl ExactSizeIterator<Item = u32> + '_ {
        self.records.iter().map(|record| record.line)
    }

    /// The names of the kept records, in their order.
    pub fn names(&self) -> impl ExactSizeIterator<Item = &'f [u8]> + '_ {
        self.records.iter().map(|record| record.name)
    }
}

/// As the program `factfilter` prints it.
impl fmt::Display for List<'_> {
    fn fmt(&self, out: &mut fmt::Formatter) -> fmt::Result {
        for record in self {
            writeln!(out, "kept,{},{}", record.line, record.name_str())?;
        }
        writeln!(out, "sum,{},{},{}", self.records.len(), self.visits, self.rounds)
    }
}

impl<'f> IntoIterator for List<'f> {
    type Item = Record<'f>;
    type IntoIter = std::vec::IntoIter<Record<'f>>;

    fn into_iter(self) -> Self::IntoIter {
        self.records.into_iter()
    }
}

impl<'l, 'f> IntoIterator for &'l List<'f> {
    type Item = &'l Record<'f>;
    type IntoIter = std::slice::Iter<'l, Record<'f>>;

    fn into_iter(self) -> Self::IntoIter {
        self.records.iter()
    }
}

/// A kept record, or one that a reason names.
#[derive(Clone, Copy, Debug, PartialEq, Eq)]
#[non_exhaustive]
pub struct Record<'f> {
    /// Its line in the file, from 1.
    pub line: u32,
    /// Its name, a part of the file. Names are ASCII.
    pub name: &'f [u8],
}

impl<'f> Record<'f> {
    /// Its name as text, a part of the file.
    #[must_use]
    pub fn name_str(&self) -> &'f str {
        std::str::from_utf8(self.name).expect("the names of an accepted file are ASCII")
    }
}

/// Its name.
impl fmt::Display for Record<'_> {
    fn fmt(&self, out: &mut fmt::Formatter) -> fmt::Result {
        out.write_str(self.name_str())
    }
}
