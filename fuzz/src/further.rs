//! The further calls against the independent version: the answer, every row or line, and every word of the lent slices.

use compare::random::Random;
use compare::{limits, Needs, Refusal, Row, LONG_ENOUGH};
use wimplejade::MOST_ASKS;

use crate::calls::{Order, Ordered, Reasons, Sweep, Swept, Why};
use crate::sequence::random_of;
use crate::{lists, Call, Lender, Lengths, MOST_MORE};

/// Of how many positions the reasons of a file are tried that is not tried as a whole, besides those that are no position.
const MOST_POSITIONS: usize = 4;

/// The words of a row.
const ROW_WORDS: usize = 3;

/// Some rows word by word.
fn words(rows: impl IntoIterator<Item = Row>) -> Vec<u32> {
    rows.into_iter().flat_map(|Row { line, number, cause }| [line, number, cause]).collect()
}

/// The lengths with a table of so many rows in place of the result slice.
fn in_words(lengths: Lengths) -> Lengths {
    Lengths { room: ROW_WORDS * lengths.room, ..lengths }
}

/// The number and the place of a refusal, both 0 where there is none.
fn number_and_place<Answer>(told: &Result<Answer, Refusal>) -> (u32, u32) {
    told.as_ref().err().map_or((0, 0), |refusal| (refusal.number, refusal.place))
}

/// How the reasons at a position differ from what document 02 says of them, if they do; `room` of the lengths is in rows.
pub fn why_difference(
    call: Why,
    lender: &mut Lender,
    file: &[u8],
    position: usize,
    lengths: Lengths,
) -> Option<String> {
    let told = compare::why(file, position, lengths.works, lengths.room);
    let (refusal, place) = number_and_place(&told);
    let (rows, met) = told.map_or((Vec::new(), 0), |told| (told.rows, told.met));
    let right = Reasons { refusal, place, met: met as usize, rows: rows.len() };
    lender.lend(in_words(lengths));
    let (working, table) = lender.slices();
    let answer = call(file, position, working, table.as_chunks_mut().0);
    let fault = if answer != right {
        format!("the answer is {answer:?}, by the independent version {right:?}")
    } else {
        lender.fault(&words(rows.iter().map(|reason| reason.row)), refusal == 7)?
    };
    Some(format!("reasons at position {position}, {lengths:?}: {fault}"))
}

/// How the second engine differs from what document 02 says of it, if it does.
pub fn sweep_difference(call: Sweep, lender: &mut Lender, file: &[u8], lengths: Lengths) -> Option<String> {
    let told = compare::sweep(file, lengths.works, lengths.room);
    let (refusal, place) = number_and_place(&told);
    let mut right = Swept { refusal, place, kept: [0; MOST_ASKS], passes: [0; MOST_ASKS] };
    let lists = told.unwrap_or_default();
    for (index, list) in lists.iter().enumerate() {
        (right.kept[index], right.passes[index]) = (list.lines.len() as u32, list.passes);
    }
    lender.lend(lengths);
    let (working, result) = lender.slices();
    let answer = call(file, working, result);
    let fault = if answer != right {
        format!("the answer is {answer:?}, by the independent version {right:?}")
    } else {
        let lines: Vec<u32> = lists.into_iter().flat_map(|list| list.lines).collect();
        lender.fault(&lines, refusal == 7)?
    };
    Some(format!("second engine, {lengths:?}: {fault}"))
}

/// How the order check differs from what document 02 says of it, if it does; `room` of the lengths is in rows.
pub fn order_difference(call: Order, lender: &mut Lender, file: &[u8], lengths: Lengths) -> Option<String> {
    let told = compare::order(file, lengths.works, lengths.room);
    let (refusal, place) = number_and_place(&told);
    let needs = told.map_or(Vec::new(), |Needs(needs)| needs);
    let right = Ordered { refusal, place, rows: needs.len() };
    lender.lend(in_words(lengths));
    let (working, table) = lender.slices();
    let answer = call(file, working, table.as_chunks_mut().0);
    let fault = if answer != right {
        format!("the answer is {answer:?}, by the independent version {right:?}")
    } else {
        lender.fault(&words(needs.iter().map(|need| need.row)), refusal == 7)?
    };
    Some(format!("order check, {lengths:?}: {fault}"))
}

/// How the two engines differ on a file with slices that are long enough, if they do: their refusals and lists are the
/// same, and the second has passes where the first has rounds.
pub fn engines_difference(first: Call, second: Sweep, lender: &mut Lender, file: &[u8]) -> Option<String> {
    let kept: Option<Vec<Vec<u32>>> =
        lists(first, lender, file).map(|lists| lists.into_iter().map(|list| list.0).collect());
    lender.lend(Lengths { works: LONG_ENOUGH, room: limits::ROOM });
    let (working, result) = lender.slices();
    let answer = second(file, working, result);
    let swept = (answer.refusal == 0).then(|| {
        let mut rest = &*result;
        let passed = answer.kept.iter().zip(answer.passes).filter(|(_, passes)| *passes > 0);
        let list = passed.map_while(|(&kept, _)| {
            let (list, after) = rest.split_at_checked(kept as usize)?;
            rest = after;
            Some(list.to_vec())
        });
        list.collect::<Vec<Vec<u32>>>()
    });
    (kept != swept).then(|| format!("the first engine keeps {kept:?}, the second {swept:?}"))
}

/// The ask and also lines that a file begins with.
fn positions(file: &[u8]) -> usize {
    let is_position = |line: &&[u8]| [&b"ask,"[..], b"ask2,", b"also,"].iter().any(|start| line.starts_with(start));
    file.split(|&byte| byte == b'\n').take_while(is_position).count()
}

/// Lengths of the working slices: now and then one is too short.
fn works(random: &mut Random) -> [usize; 6] {
    let mut works = LONG_ENOUGH.map(|words| words + random.below(MOST_MORE));
    if random.chance(3) {
        let words = [limits::WORK_WORDS - 1, random.below(limits::WORK_WORDS)];
        works[random.below(6)] = random.pick(&words);
    }
    works
}

/// Lengths with one working slice after the other too short by a word.
fn short_works(room: usize) -> impl Iterator<Item = Lengths> {
    (0..6).map(move |index| {
        let mut works = LONG_ENOUGH;
        works[index] -= 1;
        Lengths { works, room }
    })
}

/// Tries the reasons of a file: at its positions, and where it has none, with slices and tables of several lengths; as
/// a whole at every position.
pub fn try_why(call: Why, lender: &mut Lender, file: &[u8], whole: bool) -> Option<String> {
    let (mut random, count) = (random_of(file), positions(file).min(MOST_ASKS + 1));
    let mut positions: Vec<usize> = (1..=count).collect();
    while positions.len() > MOST_POSITIONS && !whole {
        positions.swap_remove(random.below(positions.len()));
    }
    positions.extend([0, count + 1]);
    let far = [1 << 16 | 1, 1 << 32 | 1, usize::MAX, random.bits() as usize];
    if whole {
        positions.extend(far);
    } else if random.chance(10) {
        positions.push(random.pick(&far));
    }
    let mut variants: Vec<(usize, Lengths)> = Vec::new();
    for position in positions {
        let rows = match random.below(16) {
            0 => limits::REASON_ROWS - 1,
            1 => random.below(limits::REASON_ROWS),
            2..=5 => limits::REASON_ROWS + random.below(300),
            _ => limits::REASON_ROWS,
        };
        variants.push((position, Lengths { works: works(&mut random), room: rows }));
        if whole {
            let rows = [limits::REASON_ROWS - 1, limits::REASON_ROWS, limits::REASON_ROWS + 1];
            variants.extend(rows.map(|room| (position, Lengths { works: LONG_ENOUGH, room })));
        }
    }
    if whole {
        variants.extend(short_works(limits::REASON_ROWS).map(|lengths| (1, lengths)));
    }
    variants.into_iter().find_map(|(position, lengths)| why_difference(call, lender, file, position, lengths))
}

/// Tries the second engine on a file, with result slices of several lengths and beside the first one.
pub fn try_sweep(first: Call, call: Sweep, lender: &mut Lender, file: &[u8], whole: bool) -> Option<String> {
    let (mut random, kept) = (random_of(file), lists(first, lender, file).unwrap_or_default());
    let kept: usize = kept.iter().map(|list| list.0.len()).sum();
    let rooms = [kept, kept.saturating_sub(1), kept + random.below(20), limits::ROOM, random.below(kept + 1)];
    let mut variants = vec![Lengths { works: works(&mut random), room: random.pick(&rooms) }];
    if whole {
        variants.extend(rooms.map(|room| Lengths { works: LONG_ENOUGH, room }));
        variants.extend(short_works(kept));
    }
    let differ = variants.into_iter().find_map(|lengths| sweep_difference(call, lender, file, lengths));
    differ.or_else(|| engines_difference(first, call, lender, file))
}

/// Tries the order check on a file, with tables of several lengths.
pub fn try_order(call: Order, lender: &mut Lender, file: &[u8], whole: bool) -> Option<String> {
    let mut random = random_of(file);
    let rows = compare::order(file, LONG_ENOUGH, limits::ORDER_ROWS).map_or(0, |Needs(needs)| needs.len());
    let tables = [rows, rows.saturating_sub(1), rows + random.below(20), limits::ORDER_ROWS, random.below(rows + 1)];
    let mut variants = vec![Lengths { works: works(&mut random), room: random.pick(&tables) }];
    if whole {
        variants.extend(tables.map(|room| Lengths { works: LONG_ENOUGH, room }));
        variants.extend(short_works(rows));
    }
    variants.into_iter().find_map(|lengths| order_difference(call, lender, file, lengths))
}

#[cfg(test)]
mod tests {
    use super::*;
    use crate::calls::Row as Words;
    use crate::tests::right;
    use compare::calls::edges;
    use compare::{generate, Command};

    /// Clears the working slices, unless the call is refused with 7.
    fn clear(working: [&mut [u32]; 6], refusal: u32) {
        if refusal != 7 {
            working.into_iter().for_each(|words| words[..limits::WORK_WORDS].fill(0));
        }
    }

    fn lengths(working: &[&mut [u32]; 6]) -> [usize; 6] {
        working.each_ref().map(|words| words.len())
    }

    fn put(table: &mut [Words], rows: &[Row]) {
        for (words, row) in table.iter_mut().zip(rows) {
            *words = [row.line, row.number, row.cause];
        }
    }

    /// The reasons of the independent version.
    fn right_why(file: &[u8], position: usize, working: [&mut [u32]; 6], table: &mut [Words]) -> Reasons {
        let told = compare::why(file, position, lengths(&working), table.len());
        let (refusal, place) = number_and_place(&told);
        clear(working, refusal);
        let (rows, met) = told.map_or((Vec::new(), 0), |told| (told.rows, told.met));
        put(table, &rows.iter().map(|reason| reason.row).collect::<Vec<_>>());
        Reasons { refusal, place, met: met as usize, rows: rows.len() }
    }

    /// The second engine of the independent version.
    fn right_sweep(file: &[u8], working: [&mut [u32]; 6], result: &mut [u32]) -> Swept {
        let told = compare::sweep(file, lengths(&working), result.len());
        let (refusal, place) = number_and_place(&told);
        clear(working, refusal);
        let mut answer = Swept { refusal, place, kept: [0; MOST_ASKS], passes: [0; MOST_ASKS] };
        let mut rest = result;
        for (index, list) in told.unwrap_or_default().into_iter().enumerate() {
            (answer.kept[index], answer.passes[index]) = (list.lines.len() as u32, list.passes);
            let (own, after) = rest.split_at_mut(list.lines.len());
            own.copy_from_slice(&list.lines);
            rest = after;
        }
        answer
    }

    /// The order check of the independent version.
    fn right_order(file: &[u8], working: [&mut [u32]; 6], table: &mut [Words]) -> Ordered {
        let told = compare::order(file, lengths(&working), table.len());
        let (refusal, place) = number_and_place(&told);
        clear(working, refusal);
        let needs = told.map_or(Vec::new(), |Needs(needs)| needs);
        put(table, &needs.iter().map(|need| need.row).collect::<Vec<_>>());
        Ordered { refusal, place, rows: needs.len() }
    }

    /// The random files that calls are tried on.
    fn files() -> impl Iterator<Item = Vec<u8>> {
        generate::cases(3, 250).map(|case| case.file)
    }

    /// Whether reasons differ on one of some files.
    fn why_differs(call: Why) -> bool {
        let mut lender = Lender::new(1);
        files().any(|file| try_why(call, &mut lender, &file, false).is_some())
            || edges().into_iter().any(|edge| match edge.case.call {
                Command::Why(position) => {
                    let lengths = Lengths { works: edge.case.works, room: edge.case.room };
                    why_difference(call, &mut lender, &edge.case.file, position, lengths).is_some()
                }
                _ => false,
            })
    }

    /// Whether the second engine differs on one of some files.
    fn sweep_differs(call: Sweep) -> bool {
        let mut lender = Lender::new(1);
        files().any(|file| try_sweep(right, call, &mut lender, &file, false).is_some())
            || edges().into_iter().filter(|edge| edge.case.call == Command::Sweep).any(|edge| {
                let lengths = Lengths { works: edge.case.works, room: edge.case.room };
                sweep_difference(call, &mut lender, &edge.case.file, lengths).is_some()
            })
    }

    /// Whether the order check differs on one of some files.
    fn order_differs(call: Order) -> bool {
        let mut lender = Lender::new(1);
        files().any(|file| try_order(call, &mut lender, &file, false).is_some())
            || edges().into_iter().filter(|edge| edge.case.call == Command::Order).any(|edge| {
                let lengths = Lengths { works: edge.case.works, room: edge.case.room };
                order_difference(call, &mut lender, &edge.case.file, lengths).is_some()
            })
    }

    #[test]
    fn right_calls_do_not_differ() {
        assert!(!why_differs(right_why) && !sweep_differs(right_sweep) && !order_differs(right_order));
        let mut lender = Lender::new(2);
        for file in files().take(60) {
            assert_eq!(try_why(right_why, &mut lender, &file, true), None);
            assert_eq!(try_sweep(right, right_sweep, &mut lender, &file, true), None);
            assert_eq!(try_order(right_order, &mut lender, &file, true), None);
        }
    }

    #[test]
    fn the_positions_of_a_file() {
        assert_eq!(positions(b"ask,0,0\nalso,1\nhide,p\nask,0,0\n"), 2);
        assert_eq!(positions(b"ask2,0,0,1\nleaf\n"), 1);
        assert_eq!(positions(b""), 0);
    }

    #[test]
    fn wrong_reasons_differ() {
        let wrong: [(&str, Why); 12] = [
            ("a name more met", |file, position, working, table| {
                let told = right_why(file, position, working, table);
                Reasons { met: told.met + usize::from(told.rows > 1), ..told }
            }),
            ("a refusal with a count", |file, position, working, table| {
                let told = right_why(file, position, working, table);
                Reasons { rows: told.rows + usize::from(told.refusal == 15), ..told }
            }),
            ("position 0 is the first", |file, position, working, table| {
                right_why(file, position.max(1), working, table)
            }),
            ("a position is 32 bits", |file, position, working, table| {
                right_why(file, position as u32 as usize, working, table)
            }),
            ("the position past the last is the last", |file, position, working, table| {
                let count = positions(file);
                right_why(file, if position == count + 1 { count } else { position }, working, table)
            }),
            ("a table of a row less is enough", |file, position, working, table| {
                let mut longer = table.to_vec();
                longer.resize(table.len() + 1, [0; 3]);
                right_why(file, position, working, &mut longer)
            }),
            ("a table of one row more is needed", |file, position, working, table| {
                let less = table.len().saturating_sub(1);
                right_why(file, position, working, &mut table[..less])
            }),
            ("the supplier of the highest line", |file, position, working, table| {
                let told = right_why(file, position, working, table);
                let roots = file.split(|&byte| byte == b'\n').zip(1..).filter(|(line, _)| line.starts_with(b"root,"));
                let last = roots.map(|(_, line)| line).last().unwrap_or_default();
                table[..told.rows].iter_mut().for_each(|row| row[2] = row[2].max(last));
                told
            }),
            ("rows in another order", |file, position, working, table| {
                let told = right_why(file, position, working, table);
                table[..told.rows].reverse();
                told
            }),
            ("a word past the rows", |file, position, working, table| {
                let told = right_why(file, position, working, table);
                if let Some(row) = table.get_mut(told.rows) {
                    row[2] ^= 1;
                }
                told
            }),
            ("a row on a refusal", |file, position, working, table| {
                let told = right_why(file, position, working, table);
                if told.refusal == 15 {
                    table[0] = [0; 3];
                }
                told
            }),
            ("a working word left", |file, position, mut working, table| {
                let told = right_why(file, position, working.each_mut().map(|words| &mut **words), table);
                if told.refusal == 15 {
                    working[0][7] = 1;
                }
                told
            }),
        ];
        for (name, call) in wrong {
            assert!(why_differs(call), "{name}");
        }
    }

    #[test]
    fn wrong_second_engines_differ() {
        let wrong: [(&str, Sweep); 6] = [
            ("the last pass not counted", |file, working, result| {
                let told = right_sweep(file, working, result);
                Swept { passes: told.passes.map(|passes| passes.saturating_sub(1).max(u32::from(passes > 0))), ..told }
            }),
            ("passes that go on", |file, working, result| {
                let mut told = right_sweep(file, working, result);
                for index in 1..positions(file).min(MOST_ASKS) {
                    told.passes[index] += told.passes[index - 1];
                }
                told
            }),
            ("passes past the last position", |file, working, result| {
                let mut told = right_sweep(file, working, result);
                if told.refusal == 0 {
                    told.passes[15] = told.passes[15].max(1);
                }
                told
            }),
            ("a list in another order", |file, working, result| {
                let told = right_sweep(file, working, result);
                result[..told.kept[0] as usize].reverse();
                told
            }),
            ("written although there is no room", |file, working, result| {
                let told = right_sweep(file, working, result);
                if let (8, Some(word)) = (told.refusal, result.first_mut()) {
                    *word = 1;
                }
                told
            }),
            ("the room as the place of 8", |file, working, result| {
                let told = right_sweep(file, working, result);
                Swept { place: if told.refusal == 8 { result.len() as u32 } else { told.place }, ..told }
            }),
        ];
        for (name, call) in wrong {
            assert!(sweep_differs(call), "{name}");
        }
    }

    #[test]
    fn engines_that_differ() {
        let mut lender = Lender::new(1);
        let file = b"ask,0,0\nask,1,0\nfree,p\nop,eq,0,0\nassume,a,0,1\nroot,0,r,0\n";
        assert_eq!(engines_difference(right, right_sweep, &mut lender, file), None);
        let other: Sweep = |file, working, result| {
            let told = right_sweep(file, working, result);
            result[0] += 1;
            told
        };
        assert!(engines_difference(right, other, &mut lender, file).is_some());
        let other: Sweep = |_, working, result| right_sweep(b"", working, result);
        assert!(engines_difference(right, other, &mut lender, file).is_some());
    }

    #[test]
    fn wrong_order_checks_differ() {
        let wrong: [(&str, Order); 7] = [
            ("the sorts exchanged", |file, working, table| {
                let told = right_order(file, working, table);
                table[..told.rows].iter_mut().for_each(|row| row[2] = 3 - row[2]);
                told
            }),
            ("rows of the second sort alone", |file, working, table| {
                let told = right_order(file, working, table);
                let mut rows: Vec<Words> = table[..told.rows].to_vec();
                rows.retain(|row| row[2] == 2);
                Ordered { rows: rows.len(), ..told }
            }),
            ("numbers lower by one", |file, working, table| {
                let told = right_order(file, working, table);
                table[..told.rows].iter_mut().for_each(|row| row[1] = row[1].saturating_sub(1));
                told
            }),
            ("the rows there are as the place of 8", |file, working, table| {
                let told = right_order(file, working, table);
                Ordered { place: if told.refusal == 8 { table.len() as u32 } else { told.place }, ..told }
            }),
            ("written as far as there is room", |file, working, table| {
                let told = right_order(file, working, table);
                if let (8, Some(row)) = (told.refusal, table.first_mut()) {
                    row[0] ^= 1;
                }
                told
            }),
            ("a row past the last", |file, working, table| {
                let told = right_order(file, working, table);
                if let (0, Some(row)) = (told.refusal, table.get_mut(told.rows)) {
                    row[0] ^= 1;
                }
                told
            }),
            ("a table of one row more is needed", |file, working, table| {
                let less = table.len().saturating_sub(1);
                right_order(file, working, &mut table[..less])
            }),
        ];
        for (name, call) in wrong {
            assert!(order_differs(call), "{name}");
        }
    }
}
