//! What two sequences of a file have to do with each other, asked of the call alone: the answers to a file and to the same
//! file rearranged.

use std::collections::BTreeSet;

use compare::random::Random;
use compare::{sequence, summaries, Trigger};

use crate::{lists, Call, Lender, List};

/// What one ask or also line comes to in every sequence of the record lines.
#[derive(Debug, PartialEq)]
struct Told {
    /// The kept names, sorted.
    names: Vec<String>,
    /// The names of the reached facts, as listed.
    reached: Vec<String>,
    visits: u32,
    rounds: u32,
}

/// How the answers to an accepted file and to the same file rearranged, so many times, differ, if they do. The kept names of
/// each ask and also line are the same as sets, its visits and rounds are the same, and the reached facts stand in the same
/// order.
pub fn sequence_difference(call: Call, lender: &mut Lender, file: &[u8], times: usize) -> Option<String> {
    let lists = lists(call, lender, file)?;
    let ambients = ambients(file);
    let told = told(file, lists, &ambients);
    let mut random = random_of(file);
    (0..times).find_map(|_| {
        let other = sequence::rearranged(file, &mut random);
        let others = self::lists(call, lender, &other).map(|lists| self::told(&other, lists, &ambients));
        let Some(others) = others else {
            return Some(format!("rearranged it is refused:\n{}", String::from_utf8_lossy(&other)));
        };
        let position = (0..told.len().max(others.len())).find(|&index| told.get(index) != others.get(index))?;
        let (own, its, text) = (told.get(position), others.get(position), String::from_utf8_lossy(&other));
        Some(format!("position {}: it comes to {own:?}, rearranged to {its:?}:\n{text}", position + 1))
    })
}

/// The same numbers for the same file: one that differs does so again, however often it is rearranged then.
pub(crate) fn random_of(file: &[u8]) -> Random {
    Random::new(file.iter().fold(0, |seed, &byte| Random::new(seed ^ u64::from(byte)).bits()))
}

/// What each list of a file tells, given the names of the ambient facts.
fn told(file: &[u8], lists: Vec<List>, ambients: &BTreeSet<String>) -> Vec<Told> {
    let records = records(file);
    let told = |(kept, visits, rounds): List| {
        let kept: Vec<&Record> = kept.iter().filter_map(|&line| at(&records, line)).collect();
        let mut names: Vec<String> = kept.iter().map(|record| record.name.clone()).collect();
        names.sort_unstable();
        let reached = kept.iter().filter(|record| record.is_reached(ambients));
        Told { names, reached: reached.map(|record| record.name.clone()).collect(), visits, rounds }
    };
    lists.into_iter().map(told).collect()
}

/// A line that can be kept.
struct Record {
    name: String,
    is_fact: bool,
}

impl Record {
    /// Whether it is a reached fact if it is kept, given the names of the ambient facts.
    fn is_reached(&self, ambients: &BTreeSet<String>) -> bool {
        self.is_fact && !ambients.contains(&self.name)
    }
}

/// What each line is if it is kept; the lines that never are have their second field for a name.
fn records(file: &[u8]) -> Vec<Record> {
    let record = |line: &[u8]| {
        let mut fields = line.split(|&byte| byte == b',');
        let is_fact = fields.next() == Some(b"assume");
        Record { name: String::from_utf8_lossy(fields.next().unwrap_or_default()).into_owned(), is_fact }
    };
    file.split(|&byte| byte == b'\n').map(record).collect()
}

/// The record of a line, by its number from 1.
fn at(records: &[Record], line: u32) -> Option<&Record> {
    records.get((line as usize).checked_sub(1)?)
}

/// The names of the ambient facts of a file.
fn ambients(file: &[u8]) -> BTreeSet<String> {
    let records = records(file);
    let summaries = summaries(file).unwrap_or_default();
    let ambients = summaries.iter().filter(|fact| matches!(fact.trigger, Trigger::Ambient { .. }));
    ambients.filter_map(|fact| at(&records, fact.line)).map(|record| record.name.clone()).collect()
}

#[cfg(test)]
mod tests {
    use super::*;
    use crate::tests::{all_kept, each_line, right};
    use compare::generate;
    use wimplejade::Answer;

    /// How many of some files a call differs on.
    fn differing(call: Call) -> usize {
        let mut lender = Lender::new(1);
        generate::cases(3, 400).filter(|case| sequence_difference(call, &mut lender, &case.file, 1).is_some()).count()
    }

    /// The record lines of a file that may stand elsewhere.
    fn moving(file: &[u8]) -> impl DoubleEndedIterator<Item = &[u8]> {
        file.split(|&byte| byte == b'\n').filter(|line| sequence::moves(line))
    }

    #[test]
    fn what_a_list_tells() {
        let file =
            b"ask,0,4\nfree,p\nop,eq,0,0\nassume,b,0,1\nlabel,0\nassume,m,0,2\nassume,a,0,1\nfun,p\nroot,0,r,0\n";
        let told = told(file, vec![(vec![7, 4, 6, 8], 4, 2)], &ambients(file));
        let names = |names: &[&str]| -> Vec<String> { names.iter().map(|&name| name.to_owned()).collect() };
        let right = Told { names: names(&["a", "b", "m", "p"]), reached: names(&["a", "b"]), visits: 4, rounds: 2 };
        assert_eq!(told, [right]);
    }

    #[test]
    fn a_right_call_does_not_differ() {
        assert_eq!(differing(right), 0);
    }

    #[test]
    fn ambients_definitions_and_declarations_may_change_places() {
        let turned: Call = |file, working, result| {
            let answer = right(file, working, result);
            let (records, ambients, mut rest) = (records(file), ambients(file), result);
            for kept in answer.kept {
                let (list, after) = rest.split_at_mut(kept as usize);
                let is_reached = |&&line: &&u32| at(&records, line).is_some_and(|record| record.is_reached(&ambients));
                let reached = list.iter().take_while(is_reached).count();
                list[reached..].reverse();
                rest = after;
            }
            answer
        };
        assert_eq!(differing(turned), 0);
    }

    #[test]
    fn wrong_calls_differ() {
        let wrong: [(&str, Call); 9] = [
            ("reached facts by line", |file, working, result| {
                let answer = right(file, working, result);
                result[..answer.kept[0] as usize].sort_unstable();
                answer
            }),
            ("the kept record that stands last left out", |file, working, result| {
                let mut answer = right(file, working, result);
                let list = &result[..answer.kept[0] as usize];
                if let Some((index, _)) = list.iter().enumerate().max_by_key(|(_, &line)| line) {
                    result[index..all_kept(&answer)].rotate_left(1);
                    answer.kept[0] -= 1;
                }
                answer
            }),
            ("a round more where a fact stands first", |file, working, result| {
                let mut answer = right(file, working, result);
                if answer.refusal == 0 && moving(file).next().is_some_and(|line| line.starts_with(b"assume,")) {
                    answer.rounds[0] += 1;
                }
                answer
            }),
            ("a visit more where a root stands last", |file, working, result| {
                let mut answer = right(file, working, result);
                if answer.refusal == 0 && moving(file).next_back().is_some_and(|line| line.starts_with(b"root,")) {
                    answer.visits[0] += 1;
                }
                answer
            }),
            ("a def below a fact opens nothing", |file, working, result| {
                let mut below = false;
                let closed = each_line(file, |fields| {
                    below |= fields[0] == b"assume";
                    match *fields {
                        [b"def", name, _] if below => Some([b"fun", name].join(&b',')),
                        _ => None,
                    }
                });
                right(&closed, working, result)
            }),
            ("one root of each query", |file, working, result| {
                let mut queries = BTreeSet::new();
                let one = each_line(file, |fields| match *fields {
                    [b"root", query, _, _] => (!queries.insert(query.to_vec())).then(|| b"retain".to_vec()),
                    _ => None,
                });
                right(&one, working, result)
            }),
            ("a declaration above the terms is not kept", |file, working, result| {
                let mut terms = false;
                let without = each_line(file, |fields| {
                    terms |= matches!(fields[0], b"free" | b"leaf" | b"call");
                    match *fields {
                        [b"fun", name] if !terms => Some([b"retain", name].join(&b',')),
                        _ => None,
                    }
                });
                right(&without, working, result)
            }),
            ("a fact that stands last is refused", |file, working, result| {
                let answer = right(file, working, result);
                let last = moving(file).next_back().is_some_and(|line| line.starts_with(b"assume,"));
                Answer { refusal: answer.refusal.max(u32::from(last)), ..answer }
            }),
            ("no lists where a root stands first", |file, working, result| {
                let answer = right(file, working, result);
                let first = moving(file).next().is_some_and(|line| line.starts_with(b"root,"));
                Answer { rounds: answer.rounds.map(|rounds| if first { 0 } else { rounds }), ..answer }
            }),
        ];
        for (name, call) in wrong {
            assert!(differing(call) > 0, "{name}");
        }
    }
}
