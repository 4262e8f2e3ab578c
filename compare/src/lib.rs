//! The fact filter of document 01 with Changes 1 to 3, 6 to 11 and 13 of document 02, written independently in plain Rust
//! with the standard collections.
//!
//! It reads a file of terms, facts and roots, and keeps for each ask the facts that the roots of its query can touch,
//! with the definitions and declarations that come with them; an also line adds the roots of a query to those of the
//! line before. In a file of the newer form facts have groups, and an ask has to do with those facts alone whose group
//! it admits. [`filter`] is the whole call, [`sweep`] its second engine; [`why`] says who brought each fact in,
//! [`order`] which names of bodies stand late or nowhere, [`summaries`] how each fact is triggered. All answer with the
//! refusals of these documents.

mod asks;
pub mod calls;
pub mod case;
mod chains;
pub mod command;
pub mod edges;
pub mod export;
mod fields;
pub mod forms;
pub mod generate;
mod groups;
pub mod limits;
mod names;
mod order;
mod prune;
pub mod random;
mod reader;
mod rules;
mod scanned;
pub mod sequence;
mod several;
#[cfg(test)]
mod source;
mod sweep;
pub mod tables;
mod terms;
pub mod text;
mod why;

use std::fmt;

pub use command::Command;
pub use order::{Need, Needs, LATE, NEITHER};
pub use sweep::Swept;
pub use why::{Reason, Reasons};

use rules::Kind;

/// Why a call is refused: the number of the refusal and its place.
#[derive(Clone, Copy, Debug, PartialEq, Eq)]
pub struct Refusal {
    pub number: u32,
    pub place: u32,
}

/// The answer of a call.
#[derive(Clone, Debug, PartialEq, Eq)]
pub enum Outcome<'a> {
    Refused {
        number: u32,
        place: u32,
    },
    /// The list of each ask and also line, in their sequence.
    Kept(Vec<List<'a>>),
}

/// What one ask or also line keeps. The counts of an also line are those of its stretch.
#[derive(Clone, Debug, PartialEq, Eq)]
pub struct List<'a> {
    /// The kept lines in order.
    pub lines: Vec<u32>,
    /// The name of each, a part of the file.
    pub names: Vec<&'a [u8]>,
    pub visits: u32,
    pub rounds: u32,
}

impl<'a> Outcome<'a> {
    /// The lists; none where the call is refused.
    pub fn lists(&self) -> &[List<'a>] {
        match self {
            Outcome::Refused { .. } => &[],
            Outcome::Kept(lists) => lists,
        }
    }

    /// The lines of all lists, end to end.
    pub fn lines(&self) -> Vec<u32> {
        self.lists().iter().flat_map(|list| list.lines.iter().copied()).collect()
    }

    /// The number of the refusal, 0 if the call is accepted.
    pub fn number(&self) -> u32 {
        match self {
            Outcome::Refused { number, .. } => *number,
            Outcome::Kept(_) => 0,
        }
    }
}

impl From<Refusal> for Outcome<'_> {
    fn from(Refusal { number, place }: Refusal) -> Self {
        Outcome::Refused { number, place }
    }
}

/// The answer as `factfilter` prints it.
impl fmt::Display for Outcome<'_> {
    fn fmt(&self, out: &mut fmt::Formatter) -> fmt::Result {
        match self {
            Outcome::Refused { number, place } => writeln!(out, "refused,{number},{place}"),
            Outcome::Kept(lists) => lists.iter().try_for_each(|list| list.fmt(out)),
        }
    }
}

/// The list as `factfilter` prints it.
impl fmt::Display for List<'_> {
    fn fmt(&self, out: &mut fmt::Formatter) -> fmt::Result {
        let List { lines, names, visits, rounds } = self;
        for (line, name) in lines.iter().zip(names) {
            writeln!(out, "kept,{line},{}", text(name))?;
        }
        writeln!(out, "sum,{},{visits},{rounds}", lines.len())
    }
}

/// A name as text. Names are ASCII.
fn text(name: &[u8]) -> &str {
    std::str::from_utf8(name).unwrap_or_default()
}

/// Lengths of working slices that are long enough.
pub const LONG_ENOUGH: [usize; 6] = [limits::WORK_WORDS; 6];

/// The order inside the definitions and inside the declarations, which document 01 leaves open. Those that bodies add stand
/// after the others of their group in either.
#[derive(Clone, Copy, Debug, PartialEq, Eq)]
pub enum Order {
    /// As Pruning.fst has it: the one met last first.
    Source,
    /// By line.
    Line,
}

/// Filters a file.
///
/// `works` are the lengths of the six working slices in words, `room` that of the result slice. Only the lengths
/// matter: this version keeps its tables elsewhere. Definitions and declarations come in the order of the source.
pub fn filter(file: &[u8], works: [usize; 6], room: usize) -> Outcome<'_> {
    filter_in(Order::Source, file, works, room)
}

/// Reads a file, unless a working slice is too short.
fn read(file: &[u8], works: [usize; 6]) -> Result<reader::Background<'_>, Refusal> {
    if works.iter().any(|&words| words < limits::WORK_WORDS) {
        return Err(Refusal { number: 7, place: 0 });
    }
    reader::read(file)
}

/// Filters a file, with definitions and declarations in the order given.
pub fn filter_in(order: Order, file: &[u8], works: [usize; 6], room: usize) -> Outcome<'_> {
    let background = match read(file, works) {
        Ok(background) => background,
        Err(refusal) => return refusal.into(),
    };
    let list = |kept: prune::Kept| {
        let (lines, names) = kept.records.iter().map(|&(line, name)| (line, background.names.bytes(name))).unzip();
        List { lines, names, visits: kept.visits, rounds: kept.rounds }
    };
    let lists: Vec<List> = prune::prune(&background, order).into_iter().map(list).collect();
    let kept: usize = lists.iter().map(|list| list.lines.len()).sum();
    if kept > room {
        return Outcome::Refused { number: 8, place: kept as u32 };
    }
    Outcome::Kept(lists)
}

/// Filters a file with slices that are long enough for every file.
pub fn filter_file(file: &[u8]) -> Outcome<'_> {
    filter(file, LONG_ENOUGH, limits::ROOM)
}

/// A row of three numbers: a line, the number of a name in order of first spelling, and what the row says of the two.
#[derive(Clone, Copy, Debug, PartialEq, Eq)]
pub struct Row {
    pub line: u32,
    pub number: u32,
    pub cause: u32,
}

/// The start of a printed row.
impl fmt::Display for Row {
    fn fmt(&self, out: &mut fmt::Formatter) -> fmt::Result {
        write!(out, "row,{},{},{}", self.line, self.number, self.cause)
    }
}

/// Why each fact came along that the ask or also line at a position, counted from 1, reaches.
///
/// `works` are the lengths of the six working slices in words, `rows` that of the table in rows.
pub fn why(file: &[u8], position: usize, works: [usize; 6], rows: usize) -> Result<Reasons<'_>, Refusal> {
    if rows < limits::REASON_ROWS {
        return Err(Refusal { number: 7, place: 0 });
    }
    let background = read(file, works)?;
    let ask = position.checked_sub(1).and_then(|index| background.asks.get(index));
    let ask = ask.ok_or(Refusal { number: 15, place: 0 })?;
    Ok(why::reasons(&background, ask))
}

/// The reasons of every ask and also line, in their sequence, with slices that are long enough.
pub fn reasons(file: &[u8]) -> Result<Vec<Reasons<'_>>, Refusal> {
    let background = reader::read(file)?;
    Ok(background.asks.iter().map(|ask| why::reasons(&background, ask)).collect())
}

/// Filters a file by the second engine: the list and the passes of each ask and also line.
///
/// `works` are the lengths of the six working slices in words, `room` that of the result slice.
pub fn sweep(file: &[u8], works: [usize; 6], room: usize) -> Result<Vec<Swept<'_>>, Refusal> {
    sweep_in(Order::Source, file, works, room)
}

/// Filters a file by the second engine, with definitions and declarations in the order given.
pub fn sweep_in(order: Order, file: &[u8], works: [usize; 6], room: usize) -> Result<Vec<Swept<'_>>, Refusal> {
    let background = read(file, works)?;
    let lists: Vec<Swept> = background.asks.iter().map(|ask| sweep::sweep(&background, ask, order)).collect();
    let kept: usize = lists.iter().map(|list| list.lines.len()).sum();
    if kept > room {
        return Err(Refusal { number: 8, place: kept as u32 });
    }
    Ok(lists)
}

/// Checks over all def lines what must come before what.
///
/// `works` are the lengths of the six working slices in words, `rows` that of the table in rows.
pub fn order(file: &[u8], works: [usize; 6], rows: usize) -> Result<Needs<'_>, Refusal> {
    let needs = order::needs(&read(file, works)?);
    if needs.0.len() > rows {
        return Err(Refusal { number: 8, place: needs.0.len() as u32 });
    }
    Ok(needs)
}

/// How a fact is triggered.
#[derive(Clone, Debug, PartialEq, Eq)]
pub enum Trigger<'a> {
    Drop,
    Ambient {
        root: bool,
    },
    /// The names of each disjunct in byte order.
    Names(Vec<Vec<&'a [u8]>>),
}

/// A fact's summary: its line, how it is triggered, and its free names in byte order.
#[derive(Clone, Debug, PartialEq, Eq)]
pub struct Summary<'a> {
    pub line: u32,
    pub trigger: Trigger<'a>,
    pub free: Vec<&'a [u8]>,
}

/// The summary of each fact of a file, in the order of their lines.
pub fn summaries(file: &[u8]) -> Result<Vec<Summary<'_>>, Refusal> {
    let background = reader::read(file)?;
    let spelled = |ids: Vec<_>| -> Vec<&[u8]> {
        background.names.in_byte_order(ids).into_iter().map(|id| background.names.bytes(id)).collect()
    };
    let summary = |fact: &reader::Fact| Summary {
        line: fact.line,
        trigger: match &fact.kind {
            Kind::Drop => Trigger::Drop,
            Kind::Ambient { root } => Trigger::Ambient { root: *root },
            Kind::Triggers(disjuncts) => Trigger::Names(disjuncts.iter().cloned().map(spelled).collect()),
        },
        free: spelled(fact.free.iter().collect()),
    };
    Ok(background.facts.iter().map(summary).collect())
}

/// A summary as it stands in a `.sum` file.
impl fmt::Display for Summary<'_> {
    fn fmt(&self, out: &mut fmt::Formatter) -> fmt::Result {
        let set = |names: &[&[u8]]| format!("{{{}}}", text(&names.join(&b' ')));
        write!(out, "fact,{},", self.line)?;
        match &self.trigger {
            Trigger::Drop => write!(out, "drop")?,
            Trigger::Ambient { root } => write!(out, "ambient,{}", u32::from(*root))?,
            Trigger::Names(disjuncts) => {
                write!(out, "triggers")?;
                for names in disjuncts {
                    write!(out, ",{}", set(names))?;
                }
            }
        }
        writeln!(out, " free={}", set(&self.free))
    }
}
