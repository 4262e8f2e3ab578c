//! The proved filter against the independent version: the answer, the lists, the counts, and every word of the lent slices.

pub mod calls;
mod forms;
mod further;
mod lend;
mod sequence;
pub mod shrink;

use compare::case::Case;
use compare::random::Random;
use compare::{filter, limits, Outcome, LONG_ENOUGH};
use wimplejade::{Answer, MOST_ASKS};

pub use forms::form_difference;
pub use further::{order_difference, sweep_difference, try_order, try_sweep, try_why, why_difference};
pub use lend::Lender;
pub use sequence::sequence_difference;

/// What is tried: a call on a file and lent slices.
pub type Call = fn(&[u8], [&mut [u32]; 6], &mut [u32]) -> Answer;

/// The lengths of the slices that are lent with a file.
#[derive(Clone, Copy, Debug, PartialEq, Eq)]
pub struct Lengths {
    /// Words of the six working slices.
    pub works: [usize; 6],
    /// Words of the result slice.
    pub room: usize,
}

/// The most words by which a working slice is longer than it must be.
const MOST_MORE: usize = 40;

impl Lengths {
    /// Lengths for a case: its own where it has some, else odd ones that are long enough, with a result slice that is now
    /// and then exact or short.
    pub fn of(case: &Case, kept: usize, random: &mut Random) -> Self {
        if (case.works, case.room) != (LONG_ENOUGH, limits::ROOM) {
            return Lengths { works: case.works, room: case.room };
        }
        let works = LONG_ENOUGH.map(|words| words + random.below(MOST_MORE));
        let room = match random.below(8) {
            0 => kept,
            1 => kept.saturating_sub(1),
            2 => random.below(kept + 1),
            3..=5 => kept + random.below(20),
            _ => limits::ROOM + random.below(20),
        };
        Lengths { works, room }
    }
}

/// What the independent version says to a file with slices of these lengths, given what it says with long ones.
pub fn with_lengths<'f>(outcome: &Outcome<'f>, file: &'f [u8], lengths: Lengths) -> Outcome<'f> {
    let long = lengths.works.iter().all(|&words| words >= limits::WORK_WORDS);
    match outcome {
        Outcome::Kept(_) if long && outcome.lines().len() <= lengths.room => outcome.clone(),
        _ => expected(file, lengths),
    }
}

/// What the independent version says to a file with slices of these lengths.
pub fn expected(file: &[u8], lengths: Lengths) -> Outcome<'_> {
    filter(file, lengths.works, lengths.room)
}

/// The answer that an outcome is.
pub fn answer_of(outcome: &Outcome) -> Answer {
    let none = [0; MOST_ASKS];
    let mut answer = Answer { refusal: 0, place: 0, kept: none, visits: none, rounds: none };
    if let Outcome::Refused { number, place } = outcome {
        (answer.refusal, answer.place) = (*number, *place);
    }
    for (index, list) in outcome.lists().iter().enumerate() {
        answer.kept[index] = list.lines.len() as u32;
        answer.visits[index] = list.visits;
        answer.rounds[index] = list.rounds;
    }
    answer
}

/// How a call differs from what documents 01 and 02 say of it, if it does.
pub fn difference(call: Call, lender: &mut Lender, file: &[u8], lengths: Lengths, outcome: &Outcome) -> Option<String> {
    lender.lend(lengths);
    let (working, result) = lender.slices();
    let answer = call(file, working, result);
    let right = answer_of(outcome);
    if answer != right {
        return Some(format!("the answer is {answer:?}, by the independent version {right:?}"));
    }
    lender.fault(&outcome.lines(), right.refusal == 7)
}

/// The kept lines, the visits and the rounds of one ask or also line.
pub(crate) type List = (Vec<u32>, u32, u32);

/// The lists of a call with slices that are long enough; none if it is refused.
pub(crate) fn lists(call: Call, lender: &mut Lender, file: &[u8]) -> Option<Vec<List>> {
    lender.lend(Lengths { works: LONG_ENOUGH, room: limits::ROOM });
    let (working, result) = lender.slices();
    let answer = call(file, working, result);
    if answer.refusal != 0 {
        return None;
    }
    let mut rest = &*result;
    let mut lists = Vec::new();
    for index in (0..limits::ASKS).take_while(|&index| answer.rounds[index] > 0) {
        let (list, after) = rest.split_at_checked(answer.kept[index] as usize)?;
        lists.push((list.to_vec(), answer.visits[index], answer.rounds[index]));
        rest = after;
    }
    Some(lists)
}

#[cfg(test)]
mod tests {
    use super::*;
    use compare::edges::{self, Edge};
    use compare::generate;

    /// The independent version as a call that does all that documents 01 and 02 say.
    pub(crate) fn right(file: &[u8], mut working: [&mut [u32]; 6], result: &mut [u32]) -> Answer {
        let works = working.each_ref().map(|words| words.len());
        let outcome = filter(file, works, result.len());
        let answer = answer_of(&outcome);
        if answer.refusal != 7 {
            for words in &mut working {
                words[..limits::WORK_WORDS].fill(0);
            }
        }
        let lines = outcome.lines();
        result[..lines.len()].copy_from_slice(&lines);
        answer
    }

    /// How many lines an answer says are kept, in all lists.
    pub(crate) fn all_kept(answer: &Answer) -> usize {
        answer.kept.iter().sum::<u32>() as usize
    }

    /// How many ask and also lines an answer has counts of.
    fn asks(answer: &Answer) -> usize {
        answer.rounds.iter().filter(|&&rounds| rounds > 0).count()
    }

    /// A file with each line exchanged for what is given for its fields, where something is.
    pub(crate) fn each_line(file: &[u8], mut change: impl FnMut(&[&[u8]]) -> Option<Vec<u8>>) -> Vec<u8> {
        let lines = file.split(|&byte| byte == b'\n').map(|line| {
            let fields: Vec<&[u8]> = line.split(|&byte| byte == b',').collect();
            change(&fields).unwrap_or_else(|| line.to_vec())
        });
        lines.collect::<Vec<_>>().join(&b'\n')
    }

    /// Whether the line at each position that an answer has counts of is an also line.
    fn is_also(file: &[u8], answer: &Answer) -> Vec<bool> {
        file.split(|&byte| byte == b'\n').take(asks(answer)).map(|line| line.starts_with(b"also,")).collect()
    }

    /// Whether an edge is one of the newer form that random files seldom come to.
    fn is_seldom(edge: &Edge) -> bool {
        ["groups-off", "groups-assume", "forms-"].iter().any(|start| edge.case.name.starts_with(start))
    }

    /// A file in which each ask line of the newer form has other groups, by those that it has.
    fn with_groups(file: &[u8], mut of: impl FnMut(u32) -> u32) -> Vec<u8> {
        each_line(file, |fields| match *fields {
            [b"ask2", query, options, own] => {
                let own: u32 = String::from_utf8_lossy(own).parse().ok().filter(|&own| own <= limits::GROUPS)?;
                Some([b"ask2", query, options, of(own).to_string().as_bytes()].join(&b','))
            }
            _ => None,
        })
    }

    /// A file in which each fact of the newer form has another group.
    fn with_group(file: &[u8], of: impl Fn(&[u8]) -> &[u8]) -> Vec<u8> {
        each_line(file, |fields| match *fields {
            [b"assume", name, flag, group, term] => Some([b"assume", name, flag, of(group), term].join(&b',')),
            _ => None,
        })
    }

    /// How many of some files a call differs on.
    fn differing(call: Call) -> usize {
        let (mut lender, mut random, mut count) = (Lender::new(1), Random::new(2), 0);
        let seldom = edges::edges().into_iter().filter(is_seldom).map(|edge| edge.case);
        for case in generate::cases(3, 400).chain(seldom) {
            let lengths = Lengths::of(&case, 2, &mut random);
            let outcome = expected(&case.file, lengths);
            count += usize::from(difference(call, &mut lender, &case.file, lengths, &outcome).is_some());
        }
        count
    }

    #[test]
    fn a_right_call_does_not_differ() {
        assert_eq!(differing(right), 0);
    }

    #[test]
    fn wrong_calls_differ() {
        let wrong: [(&str, Call); 34] = [
            ("a visit more", |file, working, result| {
                let answer = right(file, working, result);
                Answer { visits: answer.visits.map(|visits| visits + u32::from(visits > 2)), ..answer }
            }),
            ("a round less", |file, working, result| {
                let answer = right(file, working, result);
                Answer { rounds: answer.rounds.map(|rounds| rounds.min(2)), ..answer }
            }),
            ("a refusal with a count", |file, working, result| {
                let mut answer = right(file, working, result);
                if [6, 10, 11, 12].contains(&answer.refusal) {
                    answer.visits[0] = 1;
                }
                answer
            }),
            ("the counts of one ask left for the next", |file, working, result| {
                let mut answer = right(file, working, result);
                for index in 1..asks(&answer) {
                    answer.visits[index] += answer.visits[index - 1];
                }
                answer
            }),
            ("rounds that go on", |file, working, result| {
                let mut answer = right(file, working, result);
                for index in 1..asks(&answer) {
                    answer.rounds[index] += answer.rounds[index - 1];
                }
                answer
            }),
            ("counts past the last ask", |file, working, result| {
                let mut answer = right(file, working, result);
                let last = asks(&answer);
                if (2..MOST_ASKS).contains(&last) {
                    answer.kept[last] = answer.kept[last - 1];
                }
                answer
            }),
            ("the last position never filled", |file, working, result| {
                let mut answer = right(file, working, result);
                (answer.kept[15], answer.visits[15], answer.rounds[15]) = (0, 0, 0);
                answer
            }),
            ("every ask answered with the options of the first", |file, working, result| {
                let mut options: Option<Vec<u8>> = None;
                let same = each_line(file, |fields| match *fields {
                    [b"ask", query, own] => {
                        let options = options.get_or_insert_with(|| own.to_vec());
                        Some([b"ask", query, &options[..]].join(&b','))
                    }
                    _ => None,
                });
                right(&same, working, result)
            }),
            ("an also line answered as an ask line", |file, working, result| {
                let mut options = Vec::new();
                let asks = each_line(file, |fields| match *fields {
                    [b"ask", _, own] => {
                        options = own.to_vec();
                        None
                    }
                    [b"also", query] => Some([b"ask", query, &options[..]].join(&b',')),
                    _ => None,
                });
                right(&asks, working, result)
            }),
            ("an ask line that goes on from the chain before", |file, working, result| {
                let mut asked = false;
                let one_chain = each_line(file, |fields| match *fields {
                    [b"ask", query, _] => std::mem::replace(&mut asked, true).then(|| [b"also", query].join(&b',')),
                    _ => None,
                });
                right(&one_chain, working, result)
            }),
            ("the visits of the whole chain on an also line", |file, working, result| {
                let mut answer = right(file, working, result);
                for (index, is_also) in is_also(file, &answer).into_iter().enumerate() {
                    if is_also {
                        answer.visits[index] += answer.visits[index - 1];
                    }
                }
                answer
            }),
            ("the rounds of the whole chain on an also line", |file, working, result| {
                let mut answer = right(file, working, result);
                for (index, is_also) in is_also(file, &answer).into_iter().enumerate() {
                    if is_also {
                        answer.rounds[index] += answer.rounds[index - 1] - 1;
                    }
                }
                answer
            }),
            ("no round where an also line adds nothing", |file, working, result| {
                let mut answer = right(file, working, result);
                for (index, is_also) in is_also(file, &answer).into_iter().enumerate() {
                    if is_also && answer.visits[index] == 0 {
                        answer.rounds[index] = 0;
                    }
                }
                answer
            }),
            ("the count of the last list as the place of 8", |file, working, result| {
                let answer = right(file, working, result);
                match filter(file, LONG_ENOUGH, limits::ROOM).lists() {
                    [.., last] if answer.refusal == 8 => Answer { place: last.lines.len() as u32, ..answer },
                    _ => answer,
                }
            }),
            ("a seventeenth ask line is 1", |file, working, result| {
                let answer = right(file, working, result);
                Answer { refusal: if answer.refusal == 13 { 1 } else { answer.refusal }, ..answer }
            }),
            ("lists in another sequence", |file, working, result| {
                let answer = right(file, working, result);
                let first = answer.kept[0] as usize;
                result[..all_kept(&answer)].rotate_left(first);
                answer
            }),
            ("every group admitted", |file, working, result| {
                right(&with_groups(file, |_| limits::GROUPS), working, result)
            }),
            ("the groups of the first ask for every ask", |file, working, result| {
                let mut first = None;
                right(&with_groups(file, |own| *first.get_or_insert(own)), working, result)
            }),
            ("the bits of the groups from the other end", |file, working, result| {
                right(&with_groups(file, |own| own.reverse_bits() >> 16), working, result)
            }),
            ("every fact in group 0", |file, working, result| right(&with_group(file, |_| b"0"), working, result)),
            ("group 16 taken for 0", |file, working, result| {
                right(&with_group(file, |group| if group == b"16" { b"0" } else { group }), working, result)
            }),
            ("the visits of facts that are not admitted", |file, working, result| {
                let answer = right(file, working, result);
                let all = with_groups(file, |_| limits::GROUPS);
                let visits = answer_of(&filter(&all, LONG_ENOUGH, limits::ROOM)).visits;
                Answer { visits: if answer.refusal == 0 { visits } else { answer.visits }, ..answer }
            }),
            ("facts that no ask admits are not read", |file, working, result| {
                let mut admitted = 0;
                with_groups(file, |own| {
                    admitted |= own;
                    own
                });
                let read = each_line(file, |fields| match *fields {
                    [b"assume", _, _, group, _] => {
                        let group: u32 = String::from_utf8_lossy(group).parse().ok().filter(|&group| group < 16)?;
                        (admitted >> group & 1 == 0).then(|| b"retain".to_vec())
                    }
                    _ => None,
                });
                right(&read, working, result)
            }),
            ("ask lines of both forms", |file, working, result| {
                let newer = file.starts_with(b"ask2,");
                let one_form = each_line(file, |fields| match *fields {
                    [b"ask", query, options] if newer => Some([b"ask2", query, options, b"65535"].join(&b',')),
                    _ => None,
                });
                right(&one_form, working, result)
            }),
            ("a seventeenth ask line of the other form is 13", |file, working, result| {
                let answer = right(file, working, result);
                let line = file.split(|&byte| byte == b'\n').nth(16).unwrap_or_default();
                let is_ask = line.starts_with(b"ask,") || line.starts_with(b"ask2,");
                let wrong = (answer.refusal, answer.place, is_ask) == (1, 17, true);
                Answer { refusal: if wrong { 13 } else { answer.refusal }, ..answer }
            }),
            ("any limit is 6", |file, working, result| {
                let answer = right(file, working, result);
                Answer { refusal: if (10..=12).contains(&answer.refusal) { 6 } else { answer.refusal }, ..answer }
            }),
            ("a hide line that hides nothing", |file, working, result| {
                let shown = each_line(file, |fields| match *fields {
                    [b"hide", name] => Some([&b"retain"[..], name].join(&b',')),
                    _ => None,
                });
                right(&shown, working, result)
            }),
            ("bodies that are not followed", |file, working, result| {
                let end = file.iter().position(|&byte| byte == b'\n').unwrap_or(file.len());
                let (ask, rest) = file.split_at(end);
                let mut ask = String::from_utf8_lossy(ask).into_owned();
                for options in 12..=limits::OPTIONS {
                    if let Some(query) = ask.strip_suffix(&format!(",{options}")) {
                        ask = format!("{query},{}", options - 8);
                    }
                }
                right(&[ask.as_bytes(), rest].concat(), working, result)
            }),
            ("the next line for what was full", |file, working, result| {
                let answer = right(file, working, result);
                Answer { place: answer.place + u32::from(answer.refusal == 12), ..answer }
            }),
            ("a list in another order", |file, working, result| {
                let answer = right(file, working, result);
                result[..answer.kept[0] as usize].reverse();
                answer
            }),
            ("a word past the list", |file, working, result| {
                let answer = right(file, working, result);
                if let Some(word) = result.get_mut(all_kept(&answer)) {
                    *word ^= 1;
                }
                answer
            }),
            ("a working word left", |file, mut working, result| {
                let answer = right(file, working.each_mut().map(|words| &mut **words), result);
                if answer.refusal == 0 {
                    working[3][16_383] = 1;
                }
                answer
            }),
            ("a working word past the end cleared", |file, mut working, result| {
                let answer = right(file, working.each_mut().map(|words| &mut **words), result);
                if let (1..=6 | 10..=13, Some(word)) = (answer.refusal, working[5].get_mut(16_384)) {
                    *word = 0;
                }
                answer
            }),
            ("cleared after 7", |file, mut working, result| {
                let answer = right(file, working.each_mut().map(|words| &mut **words), result);
                if answer.refusal == 7 {
                    working.into_iter().for_each(|words| words.fill(0));
                }
                answer
            }),
        ];
        for (name, call) in wrong {
            assert!(differing(call) > 0, "{name}");
        }
    }
}
