//! Why a call is refused.

use std::error::Error;
use std::fmt;

/// Why a call is refused. Lines are counted from 1. A line that passes several limits is refused with the lowest number.
///
/// A refused call has written nothing to the result slice, or to the table.
#[derive(Clone, Copy, Debug, PartialEq, Eq, Hash)]
#[non_exhaustive]
pub enum Refusal {
    /// 1: not a line of the file's form: an unknown kind or op word, fields lacking or left over, a first line other than
    /// `ask` or `ask2`, an `ask` line in a file that begins with `ask2` or the other way round, an ask, `also` or `hide` line
    /// elsewhere than at the start, no final newline, an empty file.
    Form {
        /// The line, from 1.
        line: u32,
    },
    /// 2: a field is no name: 1 to 255 bytes from `!` to `~`, no comma.
    Name {
        /// The line, from 1.
        line: u32,
    },
    /// 3: a field is no number, or a query, an options number, a groups number, a flag or a group is outside its range.
    Number {
        /// The line, from 1.
        line: u32,
    },
    /// 4: a term number that is not below the line's own, or that no term line before a record has.
    Term {
        /// The line, from 1.
        line: u32,
    },
    /// 5: an assume, fun or def has the name of an earlier one of the three.
    Repeated {
        /// The line, from 1.
        line: u32,
    },
    /// 6: with this line the file has more than 2,048 distinct names, trimmed tokens included.
    FullNames {
        /// The line, from 1.
        line: u32,
    },
    /// 7: a working slice has fewer than [`WORKING_WORDS`](crate::WORKING_WORDS) words, or the table of reasons fewer than
    /// [`MOST_ROWS`](crate::MOST_ROWS) rows.
    Working,
    /// 8: the result slice has fewer words than lines are kept in all lists.
    Room {
        /// How many lines are kept in all lists.
        kept: u32,
    },
    /// 9: the file has more than [`MOST_BYTES`](crate::MOST_BYTES) bytes.
    Size,
    /// 10: with this line the file has more than 4,096 term lines, or more than 16,384 term references in them.
    FullTerms {
        /// The line, from 1.
        line: u32,
    },
    /// 11: with this line the file has more than 1,024 record lines.
    FullRecords {
        /// The line, from 1.
        line: u32,
    },
    /// 12: with this line the file has more than 2,048 trigger entries, or more than 6,144 name uses.
    FullTriggers {
        /// The line, from 1.
        line: u32,
    },
    /// 13: with this line the file has more than [`MOST_ASKS`](crate::MOST_ASKS) ask and also lines.
    FullAsks {
        /// The line, from 1.
        line: u32,
    },
    /// 15: the position that is named has no ask or also line.
    Position,
    /// 8 of the order check: the table has fewer rows than are to be listed.
    Table {
        /// How many rows are to be listed.
        rows: u32,
    },
}

impl Refusal {
    /// The refusal of a number from 1 to 13, or 15, at a place.
    pub(crate) fn of(number: u32, place: u32) -> Option<Self> {
        Some(match number {
            1 => Refusal::Form { line: place },
            2 => Refusal::Name { line: place },
            3 => Refusal::Number { line: place },
            4 => Refusal::Term { line: place },
            5 => Refusal::Repeated { line: place },
            6 => Refusal::FullNames { line: place },
            7 => Refusal::Working,
            8 => Refusal::Room { kept: place },
            9 => Refusal::Size,
            10 => Refusal::FullTerms { line: place },
            11 => Refusal::FullRecords { line: place },
            12 => Refusal::FullTriggers { line: place },
            13 => Refusal::FullAsks { line: place },
            15 => Refusal::Position,
            _ => return None,
        })
    }

    /// The number of the refusal, from 1 to 13, or 15.
    #[must_use]
    pub fn number(&self) -> u32 {
        match self {
            Refusal::Form { .. } => 1,
            Refusal::Name { .. } => 2,
            Refusal::Number { .. } => 3,
            Refusal::Term { .. } => 4,
            Refusal::Repeated { .. } => 5,
            Refusal::FullNames { .. } => 6,
            Refusal::Working => 7,
            Refusal::Room { .. } => 8,
            Refusal::Size => 9,
            Refusal::FullTerms { .. } => 10,
            Refusal::FullRecords { .. } => 11,
            Refusal::FullTriggers { .. } => 12,
            Refusal::FullAsks { .. } => 13,
            Refusal::Position => 15,
            Refusal::Table { .. } => 8,
        }
    }

    /// The place of the refusal: the line, for 8 the number of kept lines in all lists, or of rows, for 7, 9 and 15 it is 0.
    #[must_use]
    pub fn place(&self) -> u32 {
        self.line().unwrap_or(match self {
            Refusal::Room { kept } => *kept,
            Refusal::Table { rows } => *rows,
            _ => 0,
        })
    }

    /// The line that is refused, where one is.
    #[must_use]
    pub fn line(&self) -> Option<u32> {
        match self {
            Refusal::Form { line }
            | Refusal::Name { line }
            | Refusal::Number { line }
            | Refusal::Term { line }
            | Refusal::Repeated { line }
            | Refusal::FullNames { line }
            | Refusal::FullTerms { line }
            | Refusal::FullRecords { line }
            | Refusal::FullTriggers { line }
            | Refusal::FullAsks { line } => Some(*line),
            Refusal::Working | Refusal::Room { .. } | Refusal::Size | Refusal::Position | Refusal::Table { .. } => None,
        }
    }
}

/// In words, after the line.
impl fmt::Display for Refusal {
    fn fmt(&self, out: &mut fmt::Formatter) -> fmt::Result {
        if let Some(line) = self.line() {
            write!(out, "line {line}: ")?;
        }
        match self {
            Refusal::Form { .. } => write!(out, "not a line of a fact file"),
            Refusal::Name { .. } => write!(out, "a field is no name"),
            Refusal::Number { .. } => write!(out, "a field is no number, or one out of its range"),
            Refusal::Term { .. } => write!(out, "no term line before has this number"),
            Refusal::Repeated { .. } => write!(out, "the name is taken by an earlier assume, fun or def"),
            Refusal::FullNames { .. } => write!(out, "the file has more than 2,048 names"),
            Refusal::Working => write!(out, "a working slice, or the table of reasons, is too short"),
            Refusal::Room { kept } => write!(out, "the result slice is too short for {kept} kept lines"),
            Refusal::Size => write!(out, "the file has more than 65,535 bytes"),
            Refusal::FullTerms { .. } => write!(out, "the file has more than 4,096 term lines or 16,384 references"),
            Refusal::FullRecords { .. } => write!(out, "the file has more than 1,024 record lines"),
            Refusal::FullTriggers { .. } => {
                write!(out, "the file has more than 2,048 trigger entries or 6,144 name uses")
            }
            Refusal::FullAsks { .. } => write!(out, "the file has more than 16 ask and also lines"),
            Refusal::Position => write!(out, "the file has no ask or also line at this position"),
            Refusal::Table { rows } => write!(out, "the table is too short for {rows} rows"),
        }
    }
}

impl Error for Refusal {}

#[cfg(test)]
mod tests {
    use super::*;

    #[test]
    fn each_number_is_one_refusal() {
        for number in (1..=13).chain([15]) {
            let refusal = Refusal::of(number, 20).unwrap();
            assert_eq!(refusal.number(), number);
            assert_eq!(refusal.place(), if [7, 9, 15].contains(&number) { 0 } else { 20 });
            assert_eq!(refusal.line(), (![7, 8, 9, 15].contains(&number)).then_some(20));
        }
        for number in [0, 14, 16] {
            assert_eq!(Refusal::of(number, 0), None);
        }
    }

    #[test]
    fn in_words() {
        assert_eq!(Refusal::Name { line: 7 }.to_string(), "line 7: a field is no name");
        assert_eq!(Refusal::Room { kept: 3 }.to_string(), "the result slice is too short for 3 kept lines");
        assert_eq!(Refusal::Size.to_string(), "the file has more than 65,535 bytes");
        assert_eq!(Refusal::Position.to_string(), "the file has no ask or also line at this position");
        for (number, full) in [
            (6, "2,048 names"),
            (10, "4,096 term lines or 16,384 references"),
            (11, "1,024 record lines"),
            (12, "2,048 trigger entries or 6,144 name uses"),
            (13, "16 ask and also lines"),
        ] {
            let words = Refusal::of(number, 7).unwrap().to_string();
            assert_eq!(words, format!("line 7: the file has more than {full}"));
        }
    }
}
