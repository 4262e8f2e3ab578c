//! The two sides: the proved library and the independent version, in one call on one file.

use std::hint::black_box;

use compare::{filter_file, limits, Command, List, Needs, Outcome, LONG_ENOUGH};
use wimplejade::{Counts, Refusal, MOST_KEPT, WORKING_WORDS};

use crate::calls::{self, Ordered, Reasons, Row, Swept};

/// The reasons at the first position, the one at which they are timed.
pub const WHY: Command = Command::Why(1);

/// Every call.
pub const CALLS: [Command; 4] = [Command::List, WHY, Command::Sweep, Command::Order];

/// Whether the library has a call.
pub fn is_there(call: Command) -> bool {
    match call {
        Command::List => true,
        Command::Why(_) => calls::WHY.is_some(),
        Command::Sweep => calls::SWEEP.is_some(),
        Command::Order => calls::ORDER.is_some(),
    }
}

/// The slices and the table that the library is lent.
pub struct Library {
    working: [Vec<u32>; 6],
    result: Vec<u32>,
    table: Vec<Row>,
}

/// What the library says.
pub enum Answer {
    Lists(Result<Counts, Refusal>),
    Reasons(Reasons),
    Swept(Swept),
    Ordered(Ordered),
    /// It does not have the call.
    Nothing,
}

impl Library {
    pub fn new() -> Self {
        Library {
            working: std::array::from_fn(|_| vec![0; WORKING_WORDS]),
            result: vec![0; MOST_KEPT],
            table: vec![[0; 3]; limits::ORDER_ROWS],
        }
    }

    /// Calls the library.
    pub fn call(&mut self, call: Command, file: &[u8]) -> Answer {
        let working = self.working.each_mut().map(Vec::as_mut_slice);
        let (result, table) = (&mut self.result, &mut self.table);
        match (call, calls::WHY, calls::SWEEP, calls::ORDER) {
            (Command::List, ..) => Answer::Lists(wimplejade::filter(file, working, result)),
            (Command::Why(position), Some(why), ..) => Answer::Reasons(why(file, position, working, table)),
            (Command::Sweep, _, Some(sweep), _) => Answer::Swept(sweep(file, working, result)),
            (Command::Order, _, _, Some(order)) => Answer::Ordered(order(file, working, table)),
            _ => Answer::Nothing,
        }
    }
}

/// The symbols of the library's call and of the independent version's, by which their instructions are found.
pub fn symbols(call: Command) -> (&'static str, &'static str) {
    match call {
        Command::List => ("wimplejade_filter", "bench_independent_filter"),
        Command::Why(_) => ("wimplejade_why", "bench_independent_why"),
        Command::Sweep => ("wimplejade_sweep", "bench_independent_sweep"),
        Command::Order => ("wimplejade_order", "bench_independent_order"),
    }
}

/// Calls the independent version, and gives back what it allocated.
pub fn independent(call: Command, file: &[u8]) -> usize {
    let of = match call {
        Command::List => bench_independent_filter,
        Command::Why(_) => bench_independent_why,
        Command::Sweep => bench_independent_sweep,
        Command::Order => bench_independent_order,
    };
    // SAFETY: the pointer and the length are those of a slice.
    unsafe { of(file.as_ptr(), file.len()) }
}

/// Defines a function of the independent version that can be found by its symbol, by what it makes of a file.
macro_rules! independent_call {
    ($symbol:ident, $made:expr) => {
        /// # Safety
        ///
        /// The pointer is that of a slice of so many bytes.
        #[no_mangle]
        #[inline(never)]
        unsafe extern "C" fn $symbol(file: *const u8, bytes: usize) -> usize {
            // SAFETY: as the caller promises.
            let file = unsafe { std::slice::from_raw_parts(file, bytes) };
            $made(file)
        }
    };
}

independent_call!(bench_independent_filter, |file| {
    let outcome = black_box(filter_file(file));
    outcome.lists().iter().map(|list| list.lines.len()).sum::<usize>() + outcome.number() as usize
});
independent_call!(bench_independent_why, |file| {
    black_box(compare::why(file, 1, LONG_ENOUGH, limits::REASON_ROWS)).map_or(0, |reasons| reasons.rows.len())
});
independent_call!(bench_independent_sweep, |file| {
    black_box(compare::sweep(file, LONG_ENOUGH, limits::ROOM)).map_or(0, |lists| lists.len())
});
independent_call!(bench_independent_order, |file| {
    black_box(compare::order(file, LONG_ENOUGH, limits::ORDER_ROWS)).map_or(0, |Needs(needs)| needs.len())
});

/// Some lists in a few words.
fn in_words(lists: &[List]) -> String {
    let kept: usize = lists.iter().map(|list| list.lines.len()).sum();
    let rounds: u32 = lists.iter().map(|list| list.rounds).sum();
    match lists.len() {
        1 => format!("{kept} kept, {rounds} rounds"),
        many => format!("{many} lists, {kept} kept, {rounds} rounds"),
    }
}

/// The answer of both to a call on a file, in a few words, or `None` where they differ or the library does not have the
/// call.
pub fn same_answer(call: Command, file: &[u8]) -> Option<String> {
    let mut library = Library::new();
    match library.call(call, file) {
        Answer::Lists(answer) => same_lists(file, answer, &library.result),
        Answer::Reasons(answer) => same_reasons(call, file, answer, &library.table),
        Answer::Swept(answer) => same_sweep(file, answer, &library.result),
        Answer::Ordered(answer) => same_order(file, answer, &library.table),
        Answer::Nothing => None,
    }
}

fn same_lists(file: &[u8], answer: Result<Counts, Refusal>, result: &[u32]) -> Option<String> {
    match (filter_file(file), answer) {
        (Outcome::Kept(lists), Ok(counts)) => {
            let same = counts.asks() == lists.len()
                && counts.lists(result).zip(&lists).enumerate().all(|(index, (lines, list))| {
                    (lines, counts.visits[index], counts.rounds[index]) == (&list.lines[..], list.visits, list.rounds)
                });
            same.then(|| in_words(&lists))
        }
        (Outcome::Refused { number, place }, Err(refusal)) => {
            ((number, place) == (refusal.number(), refusal.place())).then(|| format!("refused, {number}"))
        }
        _ => None,
    }
}

/// Whether the rows of a table are these.
fn are(table: &[Row], rows: impl ExactSizeIterator<Item = compare::Row>) -> bool {
    let words = |row: compare::Row| [row.line, row.number, row.cause];
    table.iter().copied().take(rows.len()).eq(rows.map(words))
}

fn same_reasons(call: Command, file: &[u8], answer: Reasons, table: &[Row]) -> Option<String> {
    let Command::Why(position) = call else { return None };
    let told = compare::why(file, position, LONG_ENOUGH, limits::REASON_ROWS).ok()?;
    let right = Reasons { refusal: 0, place: 0, met: told.met as usize, rows: told.rows.len() };
    let same = answer == right && are(table, told.rows.iter().map(|reason| reason.row));
    same.then(|| format!("{} rows, {} names met", right.rows, right.met))
}

fn same_sweep(file: &[u8], answer: Swept, result: &[u32]) -> Option<String> {
    let lists = compare::sweep(file, LONG_ENOUGH, limits::ROOM).ok()?;
    let kept = lists.iter().map(|list| list.lines.len() as u32);
    let lines = lists.iter().flat_map(|list| &list.lines);
    let (passes, count): (u32, usize) = (lists.iter().map(|list| list.passes).sum(), lists.len());
    let same = (answer.refusal, answer.place) == (0, 0)
        && answer.kept[..count].iter().copied().eq(kept)
        && answer.passes[..count].iter().copied().eq(lists.iter().map(|list| list.passes))
        && lines.zip(result).all(|(right, line)| right == line);
    let kept: u32 = answer.kept.iter().sum();
    same.then(|| match count {
        1 => format!("{kept} kept, {passes} passes"),
        many => format!("{many} lists, {kept} kept, {passes} passes"),
    })
}

fn same_order(file: &[u8], answer: Ordered, table: &[Row]) -> Option<String> {
    let Needs(needs) = compare::order(file, LONG_ENOUGH, limits::ORDER_ROWS).ok()?;
    let right = Ordered { refusal: 0, place: 0, rows: needs.len() };
    let same = answer == right && are(table, needs.iter().map(|need| need.row));
    same.then(|| format!("{} rows", right.rows))
}
