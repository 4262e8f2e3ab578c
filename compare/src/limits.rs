//! The limits of documents 01 and 02.

/// Bytes of a file.
pub const BYTES: usize = 65_535;
/// Distinct names: those the file spells and the trimmed tokens.
pub const NAMES: usize = 2_048;
/// Bytes of a name.
pub const NAME_BYTES: usize = 255;
/// Ask and also lines together.
pub const ASKS: usize = 16;
/// Term lines.
pub const TERMS: usize = 4_096;
/// Term references in term lines.
pub const REFERENCES: usize = 16_384;
/// Record lines.
pub const RECORDS: usize = 1_024;
/// Trigger entries; an empty disjunct counts as one.
pub const ENTRIES: usize = 2_048;
/// Free names summed over assume, def and root lines.
pub const USES: usize = 6_144;
/// The largest number a field can hold.
pub const NUMBER: u32 = 65_535;
/// The largest query number.
pub const QUERY: u32 = 255;
/// The largest options number.
pub const OPTIONS: u32 = 15;
/// The largest group of a fact.
pub const GROUP: u32 = 15;
/// The largest number of admitted groups: a bit for each group.
pub const GROUPS: u32 = (1 << (GROUP + 1)) - 1;
/// Words that each working slice must have.
pub const WORK_WORDS: usize = 16_384;
/// Words of a result slice that is long enough for every file: a list has at most every record line.
pub const ROOM: usize = ASKS * RECORDS;
/// Rows that the table of the reasons must have: one for each trigger entry.
pub const REASON_ROWS: usize = ENTRIES;
/// Rows of a table that is long enough for the check of every file: one for each name use.
pub const ORDER_ROWS: usize = USES;
