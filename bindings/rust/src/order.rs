//! What must come before what: the C function, the safe call over it, and its rows.

use std::fmt;

use crate::{record_on, Filter, Names, Record, Refusal, Row};

/// The most rows of the order check: a table of so many is long enough for every file.
pub const MOST_LATE_ROWS: usize = 6_144;

/// The answer of the order check as the library gives it. After a refusal `rows` is 0.
#[repr(C)]
#[derive(Clone, Copy, Debug, PartialEq, Eq)]
#[must_use]
pub struct OrderAnswer {
    /// The number of the refusal, 0 if the call is accepted.
    pub refusal: u32,
    /// The place of the refusal.
    pub place: u32,
    /// How many rows are listed.
    pub rows: usize,
}

extern "C" {
    fn wimplejade_order(
        file: *const u8,
        file_bytes: usize,
        working0: *mut u32,
        working0_words: usize,
        working1: *mut u32,
        working1_words: usize,
        working2: *mut u32,
        working2_words: usize,
        working3: *mut u32,
        working3_words: usize,
        working4: *mut u32,
        working4_words: usize,
        working5: *mut u32,
        working5_words: usize,
        rows: *mut Row,
        row_count: usize,
    ) -> OrderAnswer;
}

/// Checks over all definitions what must come before what, with lent slices and a lent table; how many rows are listed. In a
/// row `line` is that of a definition, `number` that of a free name of its body, `cause` the number of the [`Sort`].
///
/// The slices may hold anything. Rows are written from the start of the table, and nothing beyond them. After the call the
/// first [`WORKING_WORDS`](crate::WORKING_WORDS) words of each working slice are 0 and the rest is untouched; after
/// [`Refusal::Working`] nothing at all is touched.
///
/// # Errors
///
/// The call is refused: see [`Refusal`]. The table is untouched then. 8 is [`Refusal::Table`] here.
pub fn order(file: &[u8], working: [&mut [u32]; 6], rows: &mut [Row]) -> Result<usize, Refusal> {
    let answer = order_answer(file, working, rows);
    match answer.refusal {
        0 => Ok(answer.rows),
        8 => Err(Refusal::Table { rows: answer.place }),
        number => Err(Refusal::of(number, answer.place).expect("a refusal has its number")),
    }
}

/// Checks what must come before what, as [`order`] does, and hands on the answer as the library gives it: the proved call
/// itself.
pub fn order_answer(file: &[u8], working: [&mut [u32]; 6], rows: &mut [Row]) -> OrderAnswer {
    let [working0, working1, working2, working3, working4, working5] = working;
    // SAFETY: the function has no precondition but those of `wimplejade.h`: each pointer is that of a slice, so it is not
    // null, aligned, and points to as many initialised elements as are said; the seven `&mut` slices overlap neither each
    // other nor the file, and nobody else can use them meanwhile.
    unsafe {
        wimplejade_order(
            file.as_ptr(),
            file.len(),
            working0.as_mut_ptr(),
            working0.len(),
            working1.as_mut_ptr(),
            working1.len(),
            working2.as_mut_ptr(),
            working2.len(),
            working3.as_mut_ptr(),
            working3.len(),
            working4.as_mut_ptr(),
            working4.len(),
            working5.as_mut_ptr(),
            working5.len(),
            rows.as_mut_ptr(),
            rows.len(),
        )
    }
}

impl Filter {
    /// Checks over all definitions what must come before what: each free name of a body that a solver which reads from the
    /// first line on cannot know there. Ask and also lines, options and groups do not matter.
    ///
    /// # Errors
    ///
    /// The file is refused: see [`Refusal`]. [`Refusal::Working`] and [`Refusal::Table`] do not occur.
    pub fn order<'f>(&mut self, file: &'f [u8]) -> Result<Late<'f>, Refusal> {
        self.rows.resize(self.rows.len().max(MOST_LATE_ROWS), Row::default());
        let rows = order(file, self.working.each_mut().map(Vec::as_mut_slice), &mut self.rows)?;
        let (lines, names) = (file.split(|&byte| byte == b'\n').collect::<Vec<_>>(), Names::of(file));
        let need = |row: &Row| Need {
            def: record_on(&lines, row.line),
            number: row.number,
            name: names.get(row.number).expect("the name of a row stands in the file"),
            sort: Sort::of(row.cause).expect("a sort is one of two"),
        };
        Ok(Late { needs: self.rows[..rows].iter().map(need).collect() })
    }
}

/// Why the order check lists a name.
#[derive(Clone, Copy, Debug, PartialEq, Eq, Hash)]
#[non_exhaustive]
pub enum Sort {
    /// 1: its `def` or `fun` stands on the line of the definition, or on a later one.
    Later,
    /// 2: the file has neither a `def` nor a `fun` of it.
    Neither,
}

impl Sort {
    /// The sort of a number, 1 or 2.
    #[must_use]
    pub fn of(number: u32) -> Option<Self> {
        match number {
            1 => Some(Sort::Later),
            2 => Some(Sort::Neither),
            _ => None,
        }
    }

    /// The number of the sort.
    #[must_use]
    pub fn number(self) -> u32 {
        match self {
            Sort::Later => 1,
            Sort::Neither => 2,
        }
    }
}

/// In words.
impl fmt::Display for Sort {
    fn fmt(&self, out: &mut fmt::Formatter) -> fmt::Result {
        out.write_str(match self {
            Sort::Later => "its def or fun stands on the same line or a later one",
            Sort::Neither => "it has neither a def nor a fun",
        })
    }
}

/// One row: the body of a definition has a free name that is not there yet.
#[derive(Clone, Copy, Debug, PartialEq, Eq)]
#[non_exhaustive]
pub struct Need<'f> {
    /// The definition.
    pub def: Record<'f>,
    /// The number of the name, in the order in which the file spells names first.
    pub number: u32,
    /// The name, by its number as [`Names`] has it; a part of the file.
    pub name: &'f [u8],
    /// Why it is listed.
    pub sort: Sort,
}

impl<'f> Need<'f> {
    /// The name as text, a part of the file.
    #[must_use]
    pub fn name_str(&self) -> &'f str {
        std::str::from_utf8(self.name).expect("the names of an accepted file are ASCII")
    }
}

/// What the bodies of definitions name too early, or what is nowhere.
#[derive(Clone, Debug, PartialEq, Eq)]
#[must_use]
pub struct Late<'f> {
    needs: Vec<Need<'f>>,
}

impl<'f> Late<'f> {
    /// All rows: by the line of the definition, then by name in byte order, both sorts mixed.
    #[must_use]
    pub fn all(&self) -> &[Need<'f>] {
        &self.needs
    }

    /// Whether no row is of [`Sort::Later`]. It is proved that then no definition depends on itself through the free names of
    /// bodies.
    #[must_use]
    pub fn is_in_order(&self) -> bool {
        self.needs.iter().all(|need| need.sort != Sort::Later)
    }
}

/// As the program `factfilter` prints it: a line `row,LINE,NUMBER,SORT,DEF,NAME` for each, then `rows`.
impl fmt::Display for Late<'_> {
    fn fmt(&self, out: &mut fmt::Formatter) -> fmt::Result {
        for need in &self.needs {
            let Need { def, number, sort, .. } = need;
            writeln!(out, "row,{},{number},{},{def},{}", def.line, sort.number(), need.name_str())?;
        }
        writeln!(out, "rows,{}", self.needs.len())
    }
}
