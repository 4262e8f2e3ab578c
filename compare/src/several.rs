//! Files that are full of one thing or of several, and lines that pass some of these limits at once: the lowest number
//! is given, and faults 1 to 5 come before.

use crate::case::Case;
use crate::edges::{self, Edge, FULL_NAMES, FULL_RECORDS, FULL_TERMS, FULL_TRIGGERS};
use crate::limits;
use crate::random::Random;
use crate::terms::TermId;
use crate::text::{Position, Text};

/// What a file can be full of.
#[derive(Clone, Copy, Debug, PartialEq, Eq)]
enum Limit {
    Names,
    Terms,
    References,
    Records,
    Entries,
    Uses,
}

use Limit::{Entries, Names, Records, References, Terms, Uses};

/// The terms that a last line can name, by the word that stands for each.
const TERMS: [(&str, TermId); 5] = [
    ("LEAF", 0),
    // A name; as a fact it is ambient.
    ("NAME", 1),
    // One trigger entry, one use.
    ("ENTRY", 2),
    // An empty disjunct, which counts as one entry; no use.
    ("EMPTY", 3),
    // Rule 4: two entries and two uses, and the token trims to `f`.
    ("TOKEN", 7),
];

/// A file that is being filled, and what it counts towards each limit. `new`, `other` and `f` are not spelled, `known` is,
/// and `taken` is the name of a fun.
struct Filled {
    text: Text,
    /// Names other than `n0`, `n1` and so on.
    names: usize,
    references: usize,
    records: usize,
}

impl Filled {
    /// The start of a file, with so many ask and also lines in turn and so many hide lines.
    fn new(asks: usize, hides: usize) -> Self {
        let in_turn = [Position::Ask(0, 0), Position::Also(1)];
        let positions: Vec<Position> = in_turn.into_iter().cycle().take(asks).collect();
        let mut text = Text::positions(&positions);
        (0..hides).for_each(|_| text.hide("known"));
        let leaf = text.leaf();
        let name = text.free("p");
        text.all(name, &[vec![name]]);
        text.all(leaf, &[vec![]]);
        let marker = text.free("__uu__PartialApp");
        let token = text.free("f@tok");
        let apply = text.call("ApplyTT", &[marker, token]);
        text.call("Valid", &[apply]);
        text.retain(["known"]);
        text.fun("taken");
        Filled { text, names: 7, references: 6, records: 2 + hides }
    }

    /// Goes on until so many are left of a limit.
    fn fill(&mut self, limit: Limit, left: usize) {
        let text = &mut self.text;
        match limit {
            Entries => {
                let all = edges::add_empty_groups(text, limits::ENTRIES - left);
                text.assume("entries", 0, all);
                self.names += 1;
                self.references += 1;
                self.records += 1;
            }
            Uses => {
                const WIDTH: usize = 64;
                let wide = edges::add_wide_call(text, WIDTH);
                let uses = limits::USES - left;
                let (wide_roots, roots) = (uses / WIDTH, uses % WIDTH);
                (0..wide_roots).for_each(|_| text.root(1, "r", wide));
                (0..roots).for_each(|_| text.root(1, "r", 1));
                self.names += 2;
                self.references += WIDTH - 1;
                self.records += wide_roots + roots;
            }
            Names => {
                edges::spell_names(text, limits::NAMES - left - self.names);
                self.records += 1;
            }
            Records => edges::add_records(text, limits::RECORDS - left - self.records),
            References => {
                edges::add_references(text, limits::REFERENCES - left - self.references);
            }
            Terms => {
                let count = limits::TERMS - left - text.terms();
                edges::add_leaves(text, count);
            }
        }
    }
}

/// A file that has so many ask and also lines, so many hide lines and so many left of each of these limits.
fn filled(asks: usize, hides: usize, left: &[(Limit, usize)]) -> Text {
    let mut filled = Filled::new(asks, hides);
    // In this order none takes of what was filled before it.
    for limit in [Entries, Uses, Names, Records, References, Terms] {
        if let Some(&(_, left)) = left.iter().find(|(full, _)| *full == limit) {
            filled.fill(limit, left);
        }
    }
    filled.text
}

/// A file with little or nothing left of some limits, and then a few lines more.
pub fn nearly_full(random: &mut Random) -> Vec<u8> {
    let mut left = Vec::new();
    for limit in [Names, Terms, References, Records, Entries, Uses] {
        if random.chance(50) {
            left.push((limit, random.below(3)));
        }
    }
    // So many that there is room for the record lines that fill the file.
    let hides = random.pick(&[0, 0, 1, 700]);
    let asks = random.pick(&[1, 1, 1, 2, limits::ASKS, limits::ASKS + 1]);
    let mut text = filled(asks, hides, &left);
    for _ in 0..random.within(1..=4) {
        let name = random.pick(&["new", "other", "third", "known", "f", "taken"]);
        let (_, term) = random.pick(&TERMS);
        text.line(match random.below(10) {
            0 => format!("free,{name}"),
            1 => format!("call,{name},{term}"),
            2 => format!("label,{term}"),
            3 => format!("fun,{name}"),
            4 => format!("def,{name},{term}"),
            5 => format!("root,{},{name},{term}", random.below(2)),
            6 => format!("retain,known,{name}"),
            7 if random.chance(20) => format!("hide,{name}"),
            _ => format!("assume,{name},{},{term}", random.below(2)),
        });
    }
    text.finish()
}

/// Adds the lines that are refused with each number, each at the end of a file that has so many left of each limit.
fn add(edges: &mut Vec<Edge>, left: &[(Limit, usize)], answers: &[(u32, &[&str])]) {
    add_after(edges, 0, left, answers);
}

/// The same, with so many hide lines at the start of the file.
fn add_after(edges: &mut Vec<Edge>, hides: usize, left: &[(Limit, usize)], answers: &[(u32, &[&str])]) {
    let text = filled(1, hides, left);
    let start = if hides > 0 { format!("hides-{hides}-") } else { String::new() };
    let full: String = left.iter().map(|(limit, left)| format!("-{limit:?}-{left}").to_lowercase()).collect();
    for &(number, lines) in answers {
        for &line in lines {
            let name = format!("{start}left{full}-{}", line.replace(',', "-").to_lowercase());
            let line = TERMS.iter().fold(line.to_owned(), |line, (word, term)| line.replace(word, &term.to_string()));
            let mut text = text.clone();
            text.line(line);
            edges.push(Edge { case: Case::new(name, text.finish()), number });
        }
    }
}

/// Each limit alone, at its edge and one past it; then 5 before it.
pub fn one(edges: &mut Vec<Edge>) {
    let alone: [(Limit, u32, &[&str]); 6] = [
        (Names, FULL_NAMES, &["fun,new", "free,new", "assume,known,0,TOKEN"]),
        (Terms, FULL_TERMS, &["leaf"]),
        (References, FULL_TERMS, &["label,LEAF"]),
        (Records, FULL_RECORDS, &["retain", "fun,new", "assume,new,0,TOKEN"]),
        (Entries, FULL_TRIGGERS, &["assume,new,0,ENTRY", "assume,new,0,EMPTY"]),
        (Uses, FULL_TRIGGERS, &["assume,new,0,NAME", "def,new,NAME", "root,0,new,NAME"]),
    ];
    for (limit, number, lines) in alone {
        add(edges, &[(limit, 1)], &[(0, lines)]);
        add(edges, &[(limit, 0)], &[(number, lines)]);
    }
    add(edges, &[(Names, 0)], &[(5, &["assume,taken,0,TOKEN"])]);
    add(edges, &[(Records, 0)], &[(5, &["fun,taken", "def,taken,NAME", "assume,taken,0,NAME"])]);
    add(edges, &[(Entries, 0)], &[(5, &["assume,taken,0,ENTRY", "assume,taken,0,EMPTY"])]);
    add(edges, &[(Uses, 0)], &[(5, &["assume,taken,0,NAME", "def,taken,NAME"])]);
}

/// Term lines that pass two limits or three.
pub fn of_a_term_line(edges: &mut Vec<Edge>) {
    add(
        edges,
        &[(Names, 0), (References, 0)],
        &[(FULL_NAMES, &["call,new,LEAF", "call,new"]), (FULL_TERMS, &["call,known,LEAF"]), (0, &["call,known"])],
    );
    add(
        edges,
        &[(Names, 0), (Terms, 0)],
        &[(FULL_NAMES, &["free,new", "call,new"]), (FULL_TERMS, &["free,known", "leaf"])],
    );
    add(edges, &[(Terms, 0), (References, 0)], &[(FULL_TERMS, &["label,LEAF", "leaf"])]);
    add(edges, &[(Terms, 1), (References, 0)], &[(FULL_TERMS, &["label,LEAF"]), (0, &["leaf"])]);
    add(
        edges,
        &[(Names, 0), (Terms, 0), (References, 0)],
        &[
            (4, &["call,new,LEAF,4096"]),
            (FULL_NAMES, &["call,new,LEAF"]),
            (FULL_TERMS, &["call,known,LEAF"]),
            (0, &["fun,known"]),
        ],
    );
    add(
        edges,
        &[(Terms, 0), (References, 0), (Records, 0)],
        &[(FULL_TERMS, &["label,LEAF"]), (FULL_RECORDS, &["fun,new", "assume,new,0,NAME"])],
    );
}

/// Record lines that pass the limit of names and another. A token is counted after the fields of its line.
pub fn names_and_another(edges: &mut Vec<Edge>) {
    add(
        edges,
        &[(Names, 0), (Records, 0)],
        &[
            (
                FULL_NAMES,
                &[
                    "fun,new",
                    "retain,new",
                    "retain,known,new",
                    "def,new,NAME",
                    "root,0,new,NAME",
                    "root,1,new,NAME",
                    "assume,new,0,NAME",
                    "assume,new,0,TOKEN",
                    "assume,known,0,TOKEN",
                    "free,new",
                ],
            ),
            (
                FULL_RECORDS,
                &[
                    "fun,known",
                    "retain",
                    "retain,known",
                    "def,known,TOKEN",
                    "root,0,known,TOKEN",
                    "assume,known,0,NAME",
                    "assume,known,0,ENTRY",
                ],
            ),
            (0, &["free,known"]),
        ],
    );
    add(
        edges,
        &[(Names, 1), (Records, 0)],
        &[
            (FULL_NAMES, &["retain,new,other", "assume,new,0,TOKEN"]),
            (FULL_RECORDS, &["retain,new", "fun,new", "assume,new,0,NAME", "assume,known,0,TOKEN", "assume,f,0,TOKEN"]),
        ],
    );
    add(edges, &[(Names, 0), (Records, 1)], &[(FULL_NAMES, &["fun,new", "assume,known,0,TOKEN"]), (0, &["fun,known"])]);
    add(
        edges,
        &[(Names, 0), (Entries, 0)],
        &[
            (
                FULL_NAMES,
                &[
                    "assume,new,0,ENTRY",
                    "assume,new,0,EMPTY",
                    "assume,new,0,TOKEN",
                    "assume,known,0,TOKEN",
                    "def,new,ENTRY",
                ],
            ),
            (FULL_TRIGGERS, &["assume,known,0,ENTRY", "assume,known,0,EMPTY"]),
            (0, &["assume,known,0,NAME", "def,known,ENTRY"]),
        ],
    );
    add(edges, &[(Names, 0), (Entries, 1)], &[(FULL_NAMES, &["assume,known,0,TOKEN"]), (0, &["assume,known,0,ENTRY"])]);
    add(
        edges,
        &[(Names, 1), (Entries, 1)],
        &[
            (FULL_NAMES, &["assume,new,0,TOKEN"]),
            (FULL_TRIGGERS, &["assume,known,0,TOKEN", "assume,f,0,TOKEN"]),
            (0, &["assume,new,0,ENTRY"]),
        ],
    );
    add(
        edges,
        &[(Names, 0), (Uses, 0)],
        &[
            (
                FULL_NAMES,
                &[
                    "assume,new,0,NAME",
                    "assume,new,0,TOKEN",
                    "assume,known,0,TOKEN",
                    "def,new,NAME",
                    "root,0,new,NAME",
                    "fun,new",
                ],
            ),
            (
                FULL_TRIGGERS,
                &[
                    "assume,known,0,NAME",
                    "assume,known,0,ENTRY",
                    "def,known,NAME",
                    "root,0,known,NAME",
                    "root,1,known,NAME",
                ],
            ),
            (0, &["assume,known,0,LEAF", "def,known,LEAF", "fun,known"]),
        ],
    );
    add(
        edges,
        &[(Names, 1), (Uses, 1)],
        &[
            (FULL_NAMES, &["assume,new,0,TOKEN"]),
            (FULL_TRIGGERS, &["assume,known,0,TOKEN", "assume,f,0,TOKEN"]),
            (0, &["assume,new,0,NAME"]),
        ],
    );
}

/// Record lines that pass two of the limits of record lines, trigger entries and name uses.
pub fn records_and_triggers(edges: &mut Vec<Edge>) {
    add(
        edges,
        &[(Records, 0), (Entries, 0)],
        &[(FULL_RECORDS, &["assume,new,0,ENTRY", "assume,new,0,EMPTY", "assume,new,0,TOKEN", "assume,new,0,NAME"])],
    );
    add(
        edges,
        &[(Records, 1), (Entries, 0)],
        &[(FULL_TRIGGERS, &["assume,new,0,ENTRY", "assume,new,0,TOKEN"]), (0, &["assume,new,0,NAME"])],
    );
    add(edges, &[(Records, 0), (Entries, 1)], &[(FULL_RECORDS, &["assume,new,0,ENTRY", "assume,new,0,TOKEN"])]);
    add(
        edges,
        &[(Records, 0), (Uses, 0)],
        &[(
            FULL_RECORDS,
            &["assume,new,0,NAME", "assume,new,0,TOKEN", "def,new,NAME", "root,0,new,NAME", "assume,new,0,LEAF"],
        )],
    );
    add(
        edges,
        &[(Records, 1), (Uses, 0)],
        &[(FULL_TRIGGERS, &["assume,new,0,NAME", "def,new,NAME", "root,0,new,NAME"]), (0, &["assume,new,0,LEAF"])],
    );
    add(
        edges,
        &[(Entries, 0), (Uses, 0)],
        &[
            (FULL_TRIGGERS, &["assume,new,0,ENTRY", "assume,new,0,EMPTY", "assume,new,0,NAME", "assume,new,0,TOKEN"]),
            (0, &["assume,new,0,LEAF", "fun,new"]),
        ],
    );
    add(edges, &[(Entries, 1), (Uses, 0)], &[(FULL_TRIGGERS, &["assume,new,0,ENTRY"]), (0, &["assume,new,0,EMPTY"])]);
    add(edges, &[(Entries, 0), (Uses, 1)], &[(FULL_TRIGGERS, &["assume,new,0,ENTRY"]), (0, &["assume,new,0,NAME"])]);
    add(edges, &[(Records, 0), (Entries, 0), (Uses, 0)], &[(FULL_RECORDS, &["assume,new,0,ENTRY"])]);
    add(
        edges,
        &[(Names, 0), (Records, 0), (Entries, 0), (Uses, 0)],
        &[
            (1, &["fun,new,"]),
            (2, &["retain,new,"]),
            (3, &["assume,new,2,TOKEN"]),
            (4, &["assume,new,0,4096"]),
            (5, &["fun,taken", "def,taken,NAME", "assume,taken,0,TOKEN"]),
            (FULL_NAMES, &["assume,new,0,ENTRY", "assume,new,0,TOKEN", "assume,known,0,TOKEN"]),
            (FULL_RECORDS, &["assume,known,0,ENTRY"]),
        ],
    );
}

/// Files that are full of record lines, some of which are hide lines, and of something else.
pub fn with_hide_lines(edges: &mut Vec<Edge>) {
    add_after(edges, 500, &[(Records, 1)], &[(0, &["fun,new"])]);
    add_after(edges, 500, &[(Records, 0)], &[(1, &["hide,known"]), (5, &["fun,taken"]), (FULL_RECORDS, &["fun,new"])]);
    add_after(
        edges,
        500,
        &[(Names, 0), (Records, 0)],
        &[(1, &["hide,new"]), (FULL_NAMES, &["fun,new"]), (FULL_RECORDS, &["fun,known"])],
    );
    add_after(
        edges,
        500,
        &[(Records, 1), (Entries, 0), (Uses, 0)],
        &[(FULL_TRIGGERS, &["assume,new,0,ENTRY"]), (0, &["assume,new,0,LEAF"])],
    );
    add_after(edges, 500, &[(Records, 0), (Entries, 0), (Uses, 0)], &[(FULL_RECORDS, &["assume,new,0,ENTRY"])]);
}

#[cfg(test)]
mod tests {
    use std::collections::HashSet;

    use super::*;
    use crate::edges::FULL_ASKS;
    use crate::filter_file;

    #[test]
    fn nearly_full_files_pass_each_limit() {
        let mut random = Random::new(4);
        let numbers: HashSet<u32> = (0..200).map(|_| filter_file(&nearly_full(&mut random)).number()).collect();
        assert_eq!(
            numbers,
            HashSet::from([0, 1, 5, FULL_NAMES, 9, FULL_TERMS, FULL_RECORDS, FULL_TRIGGERS, FULL_ASKS])
        );
    }
}
