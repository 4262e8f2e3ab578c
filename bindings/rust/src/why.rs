//! Why each fact came along: the C function, the safe call over it, and the reasons.

use std::collections::HashMap;
use std::fmt;

use crate::{record_on, Filter, Names, Record, Refusal};

/// Rows that the table of [`why`] must have. No file has more.
pub const MOST_ROWS: usize = 2_048;

/// A row of a table, as the library fills it: of [`why`] as said here, of [`order`](crate::order()) as said there.
#[repr(C)]
#[derive(Clone, Copy, Debug, Default, PartialEq, Eq, Hash)]
pub struct Row {
    /// The line of a reached fact.
    pub line: u32,
    /// The number of a name that the fact waits for; [`Names`] has the name.
    pub number: u32,
    /// The line of the item that supplied the name.
    pub cause: u32,
}

/// The answer of the call of reasons as the library gives it. After a refusal `met` and `rows` are 0.
#[repr(C)]
#[derive(Clone, Copy, Debug, PartialEq, Eq)]
#[must_use]
pub struct WhyAnswer {
    /// The number of the refusal, 0 if the call is accepted.
    pub refusal: u32,
    /// The place of the refusal.
    pub place: u32,
    /// How many of the numbered names were met in the end.
    pub met: usize,
    /// How many rows are filled.
    pub rows: usize,
}

extern "C" {
    fn wimplejade_why(
        file: *const u8,
        file_bytes: usize,
        position: usize,
        working0: *mut u32,
        working0_words: usize,
        working1: *mut u32,
        working1_words: usize,
        working2: *mut u32,
        working2_words: usize,
        working3: *mut u32,
        working3_words: usize,
        working4: *mut u32,
        working4_words: usize,
        working5: *mut u32,
        working5_words: usize,
        rows: *mut Row,
        row_count: usize,
    ) -> WhyAnswer;
}

/// The counts of an accepted call of reasons.
#[derive(Clone, Copy, Debug, PartialEq, Eq)]
#[must_use]
#[non_exhaustive]
pub struct WhyCounts {
    /// How many of the numbered names were met in the end.
    pub met: usize,
    /// How many rows are filled.
    pub rows: usize,
}

/// Says why each fact came along that the ask or also line at a position reaches, with lent slices and a lent table. Positions
/// are counted from 1.
///
/// The slices may hold anything. Rows are written from the start of the table, and nothing beyond them. After the call the
/// first [`WORKING_WORDS`](crate::WORKING_WORDS) words of each working slice are 0 and the rest is untouched; after
/// [`Refusal::Working`] nothing at all is touched.
///
/// # Errors
///
/// The call is refused: see [`Refusal`]. The table is untouched then. [`Refusal::Working`] covers a table below [`MOST_ROWS`]
/// too, [`Refusal::Room`] does not occur.
pub fn why(file: &[u8], position: usize, working: [&mut [u32]; 6], rows: &mut [Row]) -> Result<WhyCounts, Refusal> {
    let answer = why_answer(file, position, working, rows);
    match answer.refusal {
        0 => Ok(WhyCounts { met: answer.met, rows: answer.rows }),
        number => Err(Refusal::of(number, answer.place).expect("a refusal has its number")),
    }
}

/// Says why each fact came along, as [`why`] does, and hands on the answer as the library gives it: the proved call itself.
pub fn why_answer(file: &[u8], position: usize, working: [&mut [u32]; 6], rows: &mut [Row]) -> WhyAnswer {
    let [working0, working1, working2, working3, working4, working5] = working;
    // SAFETY: the function has no precondition but those of `wimplejade.h`: each pointer is that of a slice, so it is not
    // null, aligned, and points to as many initialised elements as are said; the seven `&mut` slices overlap neither each
    // other nor the file, and nobody else can use them meanwhile.
    unsafe {
        wimplejade_why(
            file.as_ptr(),
            file.len(),
            position,
            working0.as_mut_ptr(),
            working0.len(),
            working1.as_mut_ptr(),
            working1.len(),
            working2.as_mut_ptr(),
            working2.len(),
            working3.as_mut_ptr(),
            working3.len(),
            working4.as_mut_ptr(),
            working4.len(),
            working5.as_mut_ptr(),
            working5.len(),
            rows.as_mut_ptr(),
            rows.len(),
        )
    }
}

impl Filter {
    /// Says why each fact came along that the ask or also line at a position reaches. Positions are counted from 1, as lines
    /// are: position 2 is line 2. On an also line the reasons are those of a run over all roots of its chain so far.
    ///
    /// # Errors
    ///
    /// The file is refused, or the position has no ask or also line: see [`Refusal`]. [`Refusal::Working`] and
    /// [`Refusal::Room`] do not occur.
    pub fn why<'f>(&mut self, file: &'f [u8], position: usize) -> Result<Reasons<'f>, Refusal> {
        self.rows.resize(self.rows.len().max(MOST_ROWS), Row::default());
        let counts = why(file, position, self.working.each_mut().map(Vec::as_mut_slice), &mut self.rows)?;
        let (lines, names) = (file.split(|&byte| byte == b'\n').collect::<Vec<_>>(), Names::of(file));
        let reason = |row: &Row| Reason {
            fact: record_on(&lines, row.line),
            number: row.number,
            name: names.get(row.number).expect("the name of a row stands in the file"),
            supplier: record_on(&lines, row.cause),
        };
        Ok(Reasons::new(self.rows[..counts.rows].iter().map(reason).collect(), counts.met))
    }
}

/// One reason: a reached fact waits for a name, which was met by the end of the fact's round, and an item supplied it.
#[derive(Clone, Copy, Debug, PartialEq, Eq)]
#[non_exhaustive]
pub struct Reason<'f> {
    /// The fact.
    pub fact: Record<'f>,
    /// The number of the name, in the order in which the file spells names first.
    pub number: u32,
    /// The name, by its number as [`Names`] has it; a part of the file. It can be empty: a token may have nothing but the four
    /// bytes that rule 4 takes off.
    pub name: &'f [u8],
    /// What supplied the name: a root, an ambient root, or a fact of a lower round. It has the name, or a macro that opens to
    /// it.
    pub supplier: Record<'f>,
}

impl<'f> Reason<'f> {
    /// The name as text, a part of the file.
    #[must_use]
    pub fn name_str(&self) -> &'f str {
        std::str::from_utf8(self.name).expect("the names of an accepted file are ASCII")
    }
}

/// Why each fact came along that an ask or also line reaches.
#[derive(Clone, Debug, PartialEq, Eq)]
#[must_use]
pub struct Reasons<'f> {
    reasons: Vec<Reason<'f>>,
    met: usize,
    /// The reasons of each reached fact, by its line: where they start and end.
    facts: HashMap<u32, (usize, usize)>,
    /// The round of each reached fact, by its line.
    rounds: HashMap<u32, u32>,
}

impl<'f> Reasons<'f> {
    /// The reasons from all rows, which stand fact by fact.
    fn new(reasons: Vec<Reason<'f>>, met: usize) -> Self {
        let mut facts = HashMap::new();
        for (index, reason) in reasons.iter().enumerate() {
            facts.entry(reason.fact.line).or_insert((index, index)).1 = index + 1;
        }
        let mut all = Reasons { reasons, met, facts, rounds: HashMap::new() };
        for index in 0..all.reasons.len() {
            all.find_round(all.reasons[index].fact.line);
        }
        all
    }

    /// Notes the round of a line, and those of its suppliers. The rounds of suppliers fall, so this ends.
    fn find_round(&mut self, line: u32) -> u32 {
        if let Some(&round) = self.rounds.get(&line) {
            return round;
        }
        let Some(&(start, end)) = self.facts.get(&line) else { return 0 };
        let round = (start..end).map(|index| self.find_round(self.reasons[index].supplier.line)).max();
        let round = round.map_or(0, |last| last + 1);
        self.rounds.insert(line, round);
        round
    }

    /// All reasons: by the fact's name, then by the name that it waits for, both in byte order.
    #[must_use]
    pub fn all(&self) -> &[Reason<'f>] {
        &self.reasons
    }

    /// How many of the numbered names were met in the end. Names that the file does not spell have no number.
    #[must_use]
    pub fn met(&self) -> usize {
        self.met
    }

    /// The reasons of the fact on a line; none where that is not a reached fact.
    #[must_use]
    pub fn of(&self, line: u32) -> &[Reason<'f>] {
        self.facts.get(&line).map_or(&[], |&(start, end)| &self.reasons[start..end])
    }

    /// The round of the reached fact on a line, the one that first triggered it: one more than the highest round of its
    /// suppliers, where roots and ambient roots are of round 0.
    #[must_use]
    pub fn round(&self, line: u32) -> Option<u32> {
        self.rounds.get(&line).copied()
    }

    /// How the goal leads to the fact on a line, from the fact down: the reason that was the last to come, then that of its
    /// supplier, and so on. Each is one round lower than the one before, so there are as many as the fact's round; the supplier
    /// of the last one is a root or an ambient root. Of several that came last it is the one whose name is the first in byte
    /// order. There are none where the line is not a reached fact.
    #[must_use]
    pub fn chain(&self, line: u32) -> Vec<Reason<'f>> {
        let round = |line: u32| self.round(line).unwrap_or(0);
        let latest = |line: u32| self.of(line).iter().rev().max_by_key(|reason| round(reason.supplier.line));
        std::iter::successors(latest(line), |reason| latest(reason.supplier.line)).copied().collect()
    }
}

/// As the program `factfilter` prints it: a line `row,LINE,NUMBER,SUPPLIER,FACT,NAME,ITEM` for each reason, then `met` and
/// `rows`.
impl fmt::Display for Reasons<'_> {
    fn fmt(&self, out: &mut fmt::Formatter) -> fmt::Result {
        for reason in &self.reasons {
            let Reason { fact, number, supplier, .. } = reason;
            write!(out, "row,{},{number},{},", fact.line, supplier.line)?;
            writeln!(out, "{},{},{}", fact.name_str(), reason.name_str(), supplier.name_str())?;
        }
        writeln!(out, "met,{}\nrows,{}", self.met, self.reasons.len())
    }
}
