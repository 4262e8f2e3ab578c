//! What the two forms of a file have to do with each other, asked of the call alone: the answers to a file and to the same file
//! in the other form.

use compare::{forms, limits};

use crate::{lists, Call, Lender};

/// Of how many asks with groups of their own a file of the newer form is tried.
const MOST_TRIED: usize = 4;

/// How the answers to an accepted file and to its other form differ, if they do. A file of the older form is answered as in the
/// newer one with all groups admitted, line for line; in a file of the newer form each chain is answered as in the older form
/// without the facts that it does not admit, line numbers apart.
pub fn form_difference(call: Call, lender: &mut Lender, file: &[u8]) -> Option<String> {
    let lists = lists(call, lender, file)?;
    if !file.starts_with(b"ask2,") {
        let newer = forms::all_admitted(file);
        if newer.len() > limits::BYTES {
            return None;
        }
        let other = self::lists(call, lender, &newer);
        let why = || format!("the lists are {lists:?}, in the newer form with all groups admitted {other:?}");
        return (other.as_ref() != Some(&lists)).then(why);
    }
    let groups = groups(file);
    let mut tried: Vec<u32> = groups.clone();
    tried.sort_unstable();
    tried.dedup();
    tried.into_iter().take(MOST_TRIED).find_map(|admitted| {
        let (older, lines) = forms::admitted(file, admitted);
        let others = self::lists(call, lender, &older).unwrap_or_default();
        (0..lists.len()).filter(|&position| groups.get(position) == Some(&admitted)).find_map(|position| {
            let other = others.get(position).map(|(kept, visits, rounds)| {
                let line = |&line: &u32| lines.get(line as usize - 1).copied().unwrap_or_default();
                (kept.iter().map(line).collect(), *visits, *rounds)
            });
            let why = || {
                let (own, position) = (&lists[position], position + 1);
                format!("position {position}: the list is {own:?}, without the facts not admitted {other:?}")
            };
            (other.as_ref() != Some(&lists[position])).then(why)
        })
    })
}

/// The groups of each ask and also line of an accepted file of the newer form.
fn groups(file: &[u8]) -> Vec<u32> {
    let mut groups: Vec<u32> = Vec::new();
    for line in file.split(|&byte| byte == b'\n') {
        let fields: Vec<&[u8]> = line.split(|&byte| byte == b',').collect();
        match (&*fields, groups.last()) {
            (&[b"ask2", _, _, own], _) => groups.push(String::from_utf8_lossy(own).parse().unwrap_or_default()),
            (&[b"also", _], Some(&before)) => groups.push(before),
            _ => break,
        }
    }
    groups
}

#[cfg(test)]
mod tests {
    use super::*;
    use crate::tests::{each_line, right};
    use compare::generate;
    use wimplejade::Answer;

    /// How many of some files a call differs on.
    fn differing(call: Call) -> usize {
        let mut lender = Lender::new(1);
        generate::cases(3, 400).filter(|case| form_difference(call, &mut lender, &case.file).is_some()).count()
    }

    #[test]
    fn the_groups_of_each_position() {
        assert_eq!(groups(b"ask2,0,0,9\nalso,1\nask2,0,0,2\nhide,p\nleaf\n"), [9, 9, 2]);
    }

    #[test]
    fn a_right_call_does_not_differ() {
        assert_eq!(differing(right), 0);
    }

    #[test]
    fn wrong_calls_differ() {
        let wrong: [(&str, Call); 3] = [
            ("the newer form is refused", |file, working, result| {
                let answer = right(file, working, result);
                Answer { refusal: answer.refusal.max(u32::from(file.starts_with(b"ask2"))), ..answer }
            }),
            ("a visit less in the newer form", |file, working, result| {
                let answer = right(file, working, result);
                let less = u32::from(file.starts_with(b"ask2"));
                Answer { visits: answer.visits.map(|visits| visits.saturating_sub(less)), ..answer }
            }),
            ("all groups admitted", |file, working, result| {
                let all = each_line(file, |fields| match *fields {
                    [b"ask2", query, options, _] => Some([b"ask2", query, options, b"65535"].join(&b',')),
                    _ => None,
                });
                right(&all, working, result)
            }),
        ];
        for (name, call) in wrong {
            assert!(differing(call) > 0, "{name}");
        }
    }
}
