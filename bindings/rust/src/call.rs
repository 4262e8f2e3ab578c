//! The C function of the archive, and the safe call over it.

use crate::{Refusal, MOST_ASKS};

/// The answer as the library gives it. The counts of the ask on line 1 stand at index 0, and so on for the ask and also lines
/// after it; past the last of them, and after a refusal, they are 0.
#[repr(C)]
#[derive(Clone, Copy, Debug, PartialEq, Eq)]
#[must_use]
pub struct Answer {
    /// The number of the refusal, 0 if the call is accepted.
    pub refusal: u32,
    /// The place of the refusal.
    pub place: u32,
    /// How many lines each ask or also line keeps.
    pub kept: [u32; MOST_ASKS],
    /// The filed trigger entries whose name was met, for each ask; for an also line those first met in its stretch.
    pub visits: [u32; MOST_ASKS],
    /// The rounds of the run of each ask and of the stretch of each also line.
    pub rounds: [u32; MOST_ASKS],
}

extern "C" {
    fn wimplejade_filter(
        file: *const u8,
        file_bytes: usize,
        working0: *mut u32,
        working0_words: usize,
        working1: *mut u32,
        working1_words: usize,
        working2: *mut u32,
        working2_words: usize,
        working3: *mut u32,
        working3_words: usize,
        working4: *mut u32,
        working4_words: usize,
        working5: *mut u32,
        working5_words: usize,
        result: *mut u32,
        result_words: usize,
    ) -> Answer;
}

/// The counts of an accepted call. Those of the ask on line 1 stand at index 0, and so on for the ask and also lines after it;
/// past the last of them they are 0.
#[derive(Clone, Copy, Debug, PartialEq, Eq)]
#[must_use]
#[non_exhaustive]
pub struct Counts {
    /// How many lines each ask or also line keeps.
    pub kept: [u32; MOST_ASKS],
    /// The filed trigger entries whose name was met, for each ask; for an also line those first met in its stretch.
    pub visits: [u32; MOST_ASKS],
    /// The rounds of the run of each ask and of the stretch of each also line, at least 1.
    pub rounds: [u32; MOST_ASKS],
}

impl Counts {
    /// How many ask and also lines the file has: those that have rounds.
    #[must_use]
    pub fn asks(&self) -> usize {
        self.rounds.iter().take_while(|&&rounds| rounds > 0).count()
    }

    /// How many lines are kept in all: so many words of the result slice are line numbers.
    #[must_use]
    pub fn words(&self) -> usize {
        self.kept.iter().map(|&kept| kept as usize).sum()
    }

    /// The kept line numbers of each ask and also line, in their sequence, as parts of the call's result slice.
    ///
    /// # Panics
    ///
    /// The slice is shorter than the kept lines, so it is not that of the call.
    pub fn lists<'r>(&self, result: &'r [u32]) -> impl ExactSizeIterator<Item = &'r [u32]> + 'r {
        parted(self.kept, self.asks(), result)
    }
}

/// The parts of a result slice for so many positions, by how many lines each keeps.
pub(crate) fn parted(
    kept: [u32; MOST_ASKS],
    asks: usize,
    mut result: &[u32],
) -> impl ExactSizeIterator<Item = &[u32]> + '_ {
    (0..asks).map(move |index| {
        let (list, after) = result.split_at(kept[index] as usize);
        result = after;
        list
    })
}

/// Filters a file with lent slices.
///
/// The six working slices may hold anything. The kept line numbers of all lists, one after the other, are written from the
/// start of the result slice, and nothing beyond them; [`Counts::lists`] parts them. After the call the first
/// [`WORKING_WORDS`](crate::WORKING_WORDS) words of each working slice are 0 and the rest is untouched; after
/// [`Refusal::Working`] nothing at all is touched.
///
/// # Errors
///
/// The call is refused: see [`Refusal`]. The result slice is untouched then.
pub fn filter(file: &[u8], working: [&mut [u32]; 6], result: &mut [u32]) -> Result<Counts, Refusal> {
    let answer = answer(file, working, result);
    match answer.refusal {
        0 => Ok(Counts { kept: answer.kept, visits: answer.visits, rounds: answer.rounds }),
        number => Err(Refusal::of(number, answer.place).expect("a refusal has its number")),
    }
}

/// Filters a file with lent slices, as [`filter`] does, and hands on the answer as the library gives it: the proved call
/// itself.
pub fn answer(file: &[u8], working: [&mut [u32]; 6], result: &mut [u32]) -> Answer {
    let [working0, working1, working2, working3, working4, working5] = working;
    // SAFETY: the function has no precondition but those of `wimplejade.h`: each pointer is that of a slice, so it is not
    // null, aligned, and points to as many initialised elements as are said; the seven `&mut` slices overlap neither each
    // other nor the file, and nobody else can use them meanwhile.
    unsafe {
        wimplejade_filter(
            file.as_ptr(),
            file.len(),
            working0.as_mut_ptr(),
            working0.len(),
            working1.as_mut_ptr(),
            working1.len(),
            working2.as_mut_ptr(),
            working2.len(),
            working3.as_mut_ptr(),
            working3.len(),
            working4.as_mut_ptr(),
            working4.len(),
            working5.as_mut_ptr(),
            working5.len(),
            result.as_mut_ptr(),
            result.len(),
        )
    }
}
