//! The second engine: the C function, the safe call over it, and its lists.

use std::fmt;

use crate::call::parted;
use crate::{record_on, Filter, Record, Refusal, MOST_ASKS};

/// The answer of the second engine as the library gives it. The counts of the ask on line 1 stand at index 0, and so on for the
/// ask and also lines after it; past the last of them, and after a refusal, they are 0.
#[repr(C)]
#[derive(Clone, Copy, Debug, PartialEq, Eq)]
#[must_use]
pub struct SweepAnswer {
    /// The number of the refusal, 0 if the call is accepted.
    pub refusal: u32,
    /// The place of the refusal.
    pub place: u32,
    /// How many lines each ask or also line keeps.
    pub kept: [u32; MOST_ASKS],
    /// The passes of each ask or also line, the last one counted.
    pub passes: [u32; MOST_ASKS],
}

extern "C" {
    fn wimplejade_sweep(
        file: *const u8,
        file_bytes: usize,
        working0: *mut u32,
        working0_words: usize,
        working1: *mut u32,
        working1_words: usize,
        working2: *mut u32,
        working2_words: usize,
        working3: *mut u32,
        working3_words: usize,
        working4: *mut u32,
        working4_words: usize,
        working5: *mut u32,
        working5_words: usize,
        result: *mut u32,
        result_words: usize,
    ) -> SweepAnswer;
}

/// The counts of an accepted call of the second engine. Those of the ask on line 1 stand at index 0, and so on for the ask and
/// also lines after it; past the last of them they are 0.
#[derive(Clone, Copy, Debug, PartialEq, Eq)]
#[must_use]
#[non_exhaustive]
pub struct SweepCounts {
    /// How many lines each ask or also line keeps.
    pub kept: [u32; MOST_ASKS],
    /// The passes of each ask or also line, at least 1, the last one counted.
    pub passes: [u32; MOST_ASKS],
}

impl SweepCounts {
    /// How many ask and also lines the file has: those that have passes.
    #[must_use]
    pub fn asks(&self) -> usize {
        self.passes.iter().take_while(|&&passes| passes > 0).count()
    }

    /// The kept line numbers of each ask and also line, in their sequence, as parts of the call's result slice.
    ///
    /// # Panics
    ///
    /// The slice is shorter than the kept lines, so it is not that of the call.
    pub fn lists<'r>(&self, result: &'r [u32]) -> impl ExactSizeIterator<Item = &'r [u32]> + 'r {
        parted(self.kept, self.asks(), result)
    }
}

/// Filters a file with lent slices by the second engine. Refusals, kept lines and what happens to the slices are as of
/// [`filter`](crate::filter).
///
/// # Errors
///
/// The call is refused: see [`Refusal`]. The result slice is untouched then.
pub fn sweep(file: &[u8], working: [&mut [u32]; 6], result: &mut [u32]) -> Result<SweepCounts, Refusal> {
    let answer = sweep_answer(file, working, result);
    match answer.refusal {
        0 => Ok(SweepCounts { kept: answer.kept, passes: answer.passes }),
        number => Err(Refusal::of(number, answer.place).expect("a refusal has its number")),
    }
}

/// Filters a file with lent slices by the second engine, as [`sweep`] does, and hands on the answer as the library gives it:
/// the proved call itself.
pub fn sweep_answer(file: &[u8], working: [&mut [u32]; 6], result: &mut [u32]) -> SweepAnswer {
    let [working0, working1, working2, working3, working4, working5] = working;
    // SAFETY: the function has no precondition but those of `wimplejade.h`: each pointer is that of a slice, so it is not
    // null, aligned, and points to as many initialised elements as are said; the seven `&mut` slices overlap neither each
    // other nor the file, and nobody else can use them meanwhile.
    unsafe {
        wimplejade_sweep(
            file.as_ptr(),
            file.len(),
            working0.as_mut_ptr(),
            working0.len(),
            working1.as_mut_ptr(),
            working1.len(),
            working2.as_mut_ptr(),
            working2.len(),
            working3.as_mut_ptr(),
            working3.len(),
            working4.as_mut_ptr(),
            working4.len(),
            working5.as_mut_ptr(),
            working5.len(),
            result.as_mut_ptr(),
            result.len(),
        )
    }
}

impl Filter {
    /// Filters a file by the second engine, for all its ask and also lines: the lists of [`run`](Filter::run), with passes
    /// instead of visits and rounds.
    ///
    /// It passes over all admitted facts by line, adds each one that fires on the names met so far and may be reached, and
    /// meets its names at once; it repeats this until a pass adds none. It is there to be followed by hand and compared with;
    /// for the lists alone [`run`](Filter::run) takes less time.
    ///
    /// # Errors
    ///
    /// The file is refused, for all its ask and also lines: see [`Refusal`]. [`Refusal::Working`] and [`Refusal::Room`] do
    /// not occur, since the slices are long enough.
    pub fn sweep<'f>(&mut self, file: &'f [u8]) -> Result<Swept<'f>, Refusal> {
        let counts = sweep(file, self.working.each_mut().map(Vec::as_mut_slice), &mut self.result)?;
        let lines: Vec<&[u8]> = file.split(|&byte| byte == b'\n').collect();
        let list = |(kept, passes): (&[u32], u32)| SweptList {
            records: kept.iter().map(|&line| record_on(&lines, line)).collect(),
            passes,
        };
        Ok(Swept { lists: counts.lists(&self.result).zip(counts.passes).map(list).collect() })
    }
}

/// What a file keeps by the second engine: a list for each of its ask and also lines.
#[derive(Clone, Debug, PartialEq, Eq)]
#[must_use]
pub struct Swept<'f> {
    lists: Vec<SweptList<'f>>,
}

impl<'f> Swept<'f> {
    /// The list of each ask and also line, in their sequence. There is at least one, and that of line 1 is the first.
    pub fn lists(&self) -> &[SweptList<'f>] {
        &self.lists
    }

    /// The list of the ask or also line at a position, which is counted from 1 as lines are: position 2 is line 2.
    #[must_use]
    pub fn list(&self, position: usize) -> Option<&SweptList<'f>> {
        self.lists.get(position.checked_sub(1)?)
    }
}

/// As the program `factfilter` prints it: the lists one after the other.
impl fmt::Display for Swept<'_> {
    fn fmt(&self, out: &mut fmt::Formatter) -> fmt::Result {
        self.lists.iter().try_for_each(|list| list.fmt(out))
    }
}

/// What one ask or also line keeps by the second engine.
#[derive(Clone, Debug, PartialEq, Eq)]
#[must_use]
#[non_exhaustive]
pub struct SweptList<'f> {
    /// The kept records in their order, which is that of [`List::records`](crate::List::records).
    pub records: Vec<Record<'f>>,
    /// The passes, the last one counted: at most the facts with triggers plus one. On an also line they are those of a run over
    /// all roots of its chain so far.
    pub passes: u32,
}

/// As the program `factfilter` prints it.
impl fmt::Display for SweptList<'_> {
    fn fmt(&self, out: &mut fmt::Formatter) -> fmt::Result {
        for record in &self.records {
            writeln!(out, "kept,{},{record}", record.line)?;
        }
        writeln!(out, "pass,{},{}", self.records.len(), self.passes)
    }
}
