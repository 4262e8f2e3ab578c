//! Files at the edges of documents 01 and 02: at each limit and one past it, past several at once, refusals in the order
//! fixed, ugly shapes, and slices that are too short. Each is a named case with the number of the refusal it must give.
//!
//! Whatever is refused for a line is refused at the last line of its file.

use crate::asks;
use crate::case::Case;
use crate::chains;
use crate::groups;
use crate::limits;
use crate::several;
use crate::terms::TermId;
use crate::text::Text;
use crate::LONG_ENOUGH;

/// A case and the number of its refusal, 0 if it is accepted.
pub struct Edge {
    pub case: Case,
    pub number: u32,
}

/// The refusals that say what was full: names; term lines or references; record lines; trigger entries or name uses; ask
/// and also lines.
pub const FULL_NAMES: u32 = 6;
pub const FULL_TERMS: u32 = 10;
pub const FULL_RECORDS: u32 = 11;
pub const FULL_TRIGGERS: u32 = 12;
pub const FULL_ASKS: u32 = 13;

/// Every edge, each under its own name.
pub fn edges() -> Vec<Edge> {
    let mut edges = Vec::new();
    fields(&mut edges);
    names(&mut edges);
    tokens(&mut edges);
    terms(&mut edges);
    references(&mut edges);
    records(&mut edges);
    hide_lines(&mut edges);
    hidden_names(&mut edges);
    entries(&mut edges);
    uses(&mut edges);
    several::one(&mut edges);
    several::of_a_term_line(&mut edges);
    several::names_and_another(&mut edges);
    several::records_and_triggers(&mut edges);
    several::with_hide_lines(&mut edges);
    bytes(&mut edges);
    ugly(&mut edges);
    costly(&mut edges);
    bodies(&mut edges);
    slices(&mut edges);
    asks::counts(&mut edges);
    asks::lines(&mut edges);
    asks::limits_with_asks(&mut edges);
    asks::rooms(&mut edges);
    asks::runs(&mut edges);
    chains::counts(&mut edges);
    chains::lines(&mut edges);
    chains::limits_and_rooms(&mut edges);
    chains::stretches(&mut edges);
    groups::lines(&mut edges);
    groups::forms(&mut edges);
    groups::limits_and_rooms(&mut edges);
    groups::runs(&mut edges);
    edges
}

/// Adds a file.
pub(crate) fn add(edges: &mut Vec<Edge>, name: impl Into<String>, number: u32, text: Text) {
    edges.push(Edge { case: Case::new(name, text.finish()), number });
}

/// Adds a file that ends in the line given.
pub(crate) fn add_line(
    edges: &mut Vec<Edge>,
    name: impl Into<String>,
    number: u32,
    text: &Text,
    line: impl AsRef<[u8]>,
) {
    let mut text = text.clone();
    text.line(line);
    add(edges, name, number, text);
}

/// Names `n0`, `n1` and so on.
fn plain_names(count: usize) -> impl Iterator<Item = String> {
    (0..count).map(|index| format!("n{index}"))
}

/// Spells so many names, in one retain line.
pub fn spell_names(text: &mut Text, count: usize) {
    text.retain(plain_names(count));
}

/// Adds so many terms that name nothing.
pub fn add_leaves(text: &mut Text, count: usize) {
    for _ in 0..count {
        text.leaf();
    }
}

/// Adds a term that names term 0 so many times.
pub fn add_references(text: &mut Text, count: usize) -> TermId {
    text.op("other", &vec![0; count])
}

/// Adds so many records without effect, all of which spell nothing.
pub fn add_records(text: &mut Text, count: usize) {
    for _ in 0..count {
        text.line("retain");
    }
}

/// Adds an `all` over term 0 with so many empty groups.
pub fn add_empty_groups(text: &mut Text, count: usize) -> TermId {
    text.all(0, &vec![Vec::new(); count])
}

/// Adds a call with so many free names, its head one of them.
pub fn add_wide_call(text: &mut Text, count: usize) -> TermId {
    let parts: Vec<TermId> = plain_names(count - 1).map(|name| text.free(name)).collect();
    text.call("wide", &parts)
}

/// Adds retain lines until the file has exactly so many bytes, at least nine more than it has.
pub fn add_bytes(text: &mut Text, total: usize) {
    const LONGEST: usize = "retain,\n".len() + limits::NAME_BYTES;
    while text.len() < total {
        let left = total - text.len();
        let line = if left > 2 * LONGEST {
            LONGEST
        } else if left > LONGEST {
            left / 2
        } else {
            left
        };
        text.line(format!("retain,{}", "p".repeat(line - "retain,\n".len())));
    }
}

/// Fields at the ends of their ranges.
fn fields(edges: &mut Vec<Edge>) {
    for (length, number) in [(1, 0), (255, 0), (256, 2), (300, 2)] {
        let name = "x".repeat(length);
        let mut text = Text::ask(0, 0);
        text.leaf();
        for (kind, line) in [
            ("free", format!("free,{name}")),
            ("call", format!("call,{name},0")),
            ("assume", format!("assume,{name},0,0")),
            ("fun", format!("fun,{name}")),
            ("def", format!("def,{name},0")),
            ("retain", format!("retain,p,{name}")),
            ("root", format!("root,0,{name},0")),
        ] {
            add_line(edges, format!("name-{length}-{kind}"), number, &text, line);
        }
    }
    let empty = Text::default();
    for (query, options, number) in [
        ("0", "0", 0),
        ("255", "15", 0),
        ("256", "0", 3),
        ("0", "7", 0),
        ("0", "8", 0),
        ("0", "16", 3),
        ("0", "31", 3),
        ("65535", "0", 3),
        ("0", "65536", 3),
        ("00", "0", 3),
        ("0", "015", 3),
        ("", "0", 3),
        ("0", "", 3),
        ("256", "x", 3),
    ] {
        add_line(edges, format!("ask-{query}-{options}"), number, &empty, format!("ask,{query},{options}"));
    }
    let mut text = Text::ask(0, 0);
    text.leaf();
    for (query, number) in [("255", 0), ("256", 3), ("65536", 3), ("", 3)] {
        add_line(edges, format!("root-query-{query}"), number, &text, format!("root,{query},r,0"));
    }
    for (flag, number) in [("0", 0), ("1", 0), ("2", 3), ("01", 3), ("", 3)] {
        add_line(edges, format!("flag-{flag}"), number, &text, format!("assume,a,{flag},0"));
    }
    add_leaves(&mut text, 4);
    for (line, number) in [
        ("call,f,4", 0),
        ("call,f,5", 4),
        ("op,and,4,5", 4),
        ("all,5,0", 4),
        ("all,4,1,1,5", 4),
        ("some,4,1,1,5", 4),
        ("let,5", 4),
        ("let,4,5", 4),
        ("label,4", 0),
        ("label,5", 4),
        ("assume,a,0,4", 0),
        ("assume,a,0,5", 4),
        ("def,d,4", 0),
        ("def,d,5", 4),
        ("root,0,r,4", 0),
        ("root,0,r,5", 4),
        ("label,65535", 4),
        ("label,65536", 3),
    ] {
        add_line(edges, format!("term-{}", line.replace(',', "-")), number, &text, line);
    }
    for (name, line, number) in [
        ("groups-65535-none", "all,0,65535", 1),
        ("groups-65536", "all,0,65536", 3),
        ("group-65535-none", "some,0,1,65535", 1),
        ("groups-one-lacking", "all,0,2,0", 1),
        ("groups-term-lacking", "all,0,1,2,0", 1),
        ("groups-count-lacking", "all,0", 1),
        ("groups-body-lacking", "some", 1),
        ("groups-left-over", "all,0,0,0", 1),
        ("group-left-over", "all,0,1,0,0", 1),
        ("group-left-over-no-number", "all,0,1,0,x", 1),
        ("groups-term-4-before-lacking", "all,0,2,2,9", 4),
        ("groups-term-3-before-lacking", "all,0,2,2,x", 3),
        ("groups-comma", "all,0,0,", 1),
        ("groups-count-comma", "all,0,", 3),
    ] {
        add_line(edges, name, number, &text, line);
    }
}

/// 2,048 distinct names and the next.
fn names(edges: &mut Vec<Edge>) {
    let lines = [
        ("free", "free,z"),
        ("call", "call,z"),
        ("assume", "assume,z,0,0"),
        ("fun", "fun,z"),
        ("def", "def,z,0"),
        ("retain", "retain,z"),
        ("root", "root,0,z,0"),
        ("root-other", "root,1,z,0"),
        ("excluded", "call,Valid"),
    ];
    for total in [2_047, 2_048, 2_049] {
        let mut text = Text::ask(0, 4);
        text.leaf();
        spell_names(&mut text, total - 1);
        for (kind, line) in lines {
            let number = if total > limits::NAMES { FULL_NAMES } else { 0 };
            if total != 2_047 || kind == "free" {
                add_line(edges, format!("names-{total}-{kind}"), number, &text, line);
            }
        }
    }
    let mut full = Text::ask(0, 0);
    full.leaf();
    spell_names(&mut full, limits::NAMES);
    for (name, number, line) in [
        ("known", 0, "fun,n2047"),
        ("empty-field", 2, "retain,z,"),
        ("bad-byte", 2, "retain,z,y\x7f"),
        ("call-4", 4, "call,z,0,1"),
        ("call-3", 3, "call,z,x"),
        ("call-comma", 3, "call,z,"),
        ("free-1", 1, "free,z,"),
        ("assume-3", 3, "assume,z,2,0"),
        ("assume-4", 4, "assume,z,0,1"),
        ("assume-1", 1, "assume,z,0,0,0"),
        ("def-4", 4, "def,z,1"),
        ("root-4", 4, "root,0,z,1"),
    ] {
        add_line(edges, format!("names-full-{name}"), number, &full, line);
    }
    for (name, number, last) in [("6", FULL_NAMES, "z"), ("2", 2, "z z")] {
        let mut text = Text::ask(0, 0);
        text.retain(plain_names(9_000).chain([last.to_owned()]));
        add(edges, format!("names-one-line-{name}"), number, text);
    }
    let mut text = Text::ask(0, 0);
    for name in plain_names(limits::NAMES) {
        text.free(name);
    }
    let parts: Vec<TermId> = (0..limits::NAMES).collect();
    text.call("n0", &parts);
    text.root(0, "n1", limits::NAMES);
    add(edges, "names-2048-all-free", 0, text);
}

/// A file with the terms of rule 4 for a token; the last is the fact's.
fn token_text(token: &str) -> Text {
    let mut text = Text::ask(0, 0);
    let marker = text.free("__uu__PartialApp");
    let token = text.free(token);
    let apply = text.call("ApplyTT", &[marker, token]);
    text.call("Valid", &[apply]);
    text
}

/// Trimmed tokens at the limit of names. Four names stand in the terms.
fn tokens(edges: &mut Vec<Edge>) {
    // The names spelled once the terms and the retain line are read.
    let before = |token: &str, spelled: usize| {
        let mut text = token_text(token);
        spell_names(&mut text, spelled - 4);
        text
    };
    let room_for_both = before("f@tok", limits::NAMES - 2);
    let room_for_one = before("f@tok", limits::NAMES - 1);
    let alone = before("@tok", limits::NAMES - 1);
    let known = before("n7@tok", limits::NAMES - 1);
    for (name, number, text, line) in [
        ("both", 0, &room_for_both, "assume,a,0,3"),
        ("one", FULL_NAMES, &room_for_one, "assume,a,0,3"),
        ("own-name", 0, &room_for_one, "assume,f,0,3"),
        ("known", 0, &known, "assume,a,0,3"),
        ("rule-2", 0, &room_for_one, "assume,assumption_a,0,3"),
        ("def", 0, &room_for_one, "def,a,3"),
        ("root", 0, &room_for_one, "root,0,a,3"),
        ("known-name", 0, &room_for_one, "assume,n0,0,3"),
        ("alone", FULL_NAMES, &alone, "assume,a,0,3"),
        ("alone-known-name", 0, &alone, "assume,n0,0,3"),
        ("3-before-6", 3, &room_for_one, "assume,a,2,3"),
        ("4-before-6", 4, &room_for_one, "assume,a,0,4"),
    ] {
        add_line(edges, format!("token-{name}"), number, text, line);
    }
    let mut filled = room_for_both;
    filled.assume("a", 0, 3);
    for (name, number, line) in [
        ("again", 0, "assume,n0,0,3"),
        ("spelled", 0, "fun,f"),
        ("next", FULL_NAMES, "fun,g"),
        ("next-2", 2, "retain,g,"),
    ] {
        add_line(edges, format!("token-then-{name}"), number, &filled, line);
    }
    let mut repeated = before("f@tok", limits::NAMES);
    repeated.fun("n0");
    add_line(edges, "token-5-before-6", 5, &repeated, "assume,n0,0,3");

    let mut twice = token_text("@tok");
    spell_names(&mut twice, limits::NAMES - 7);
    twice.assume("a", 0, 3);
    twice.assume("n0", 1, 3);
    twice.fun("n1");
    add_line(edges, "token-alone-twice", 0, &twice, "free,last");
    add_line(edges, "token-alone-twice-next", FULL_NAMES, &twice, "retain,last,next");
}

/// 4,096 term lines and the next.
fn terms(edges: &mut Vec<Edge>) {
    let mut text = Text::ask(0, 0);
    add_leaves(&mut text, limits::TERMS - 1);
    add_line(edges, "terms-4096", 0, &text, "label,4094");
    text.leaf();
    for (name, number, line) in [
        ("record", 0, "assume,a,0,4095"),
        ("leaf", FULL_TERMS, "leaf"),
        ("label", FULL_TERMS, "label,4095"),
        ("free", FULL_TERMS, "free,z"),
        ("call", FULL_TERMS, "call,z,0"),
        ("own", 4, "label,4096"),
        ("leaf-1", 1, "leaf,"),
        ("word-1", 1, "op,xor"),
        ("name-2", 2, "free,"),
        ("number-3", 3, "call,f,65536"),
        ("record-4", 4, "assume,a,0,4096"),
        ("kind-1", 1, "leafs"),
    ] {
        add_line(edges, format!("terms-full-{name}"), number, &text, line);
    }
}

/// 16,384 references and the next.
fn references(edges: &mut Vec<Edge>) {
    let mut text = Text::ask(0, 0);
    text.leaf();
    let zeros = |count: usize| ",0".repeat(count);
    for total in [16_383, 16_384, 16_385] {
        let number = if total > limits::REFERENCES { FULL_TERMS } else { 0 };
        add_line(edges, format!("references-{total}-call"), number, &text, format!("call,f{}", zeros(total)));
        if total > 16_383 {
            let half = total - 8_192;
            for (kind, line) in [
                ("op", format!("op,and{}", zeros(total))),
                ("let", format!("let{}", zeros(total))),
                ("all", format!("all,0,2,{half}{},8191{}", zeros(half), zeros(8_191))),
                ("some", format!("some,0,1,{}{}", total - 1, zeros(total - 1))),
            ] {
                add_line(edges, format!("references-{total}-{kind}"), number, &text, line);
            }
        }
    }
    add_line(edges, "references-4-before-10", 4, &text, format!("op,and{},1", zeros(16_385)));
    add_line(edges, "references-3-before-10", 3, &text, format!("op,and{},", zeros(16_385)));
    add_line(edges, "references-1-before-10", 1, &text, format!("all,0,1,16385{},0", zeros(16_385)));
    add_references(&mut text, 16_000);
    add_references(&mut text, 384);
    for (name, number, line) in [
        ("leaf", 0, "leaf"),
        ("groups", FULL_TERMS, "all,0,3,0,0,0"),
        ("label", FULL_TERMS, "label,0"),
        ("assume", 0, "assume,a,0,2"),
        ("def", 0, "def,a,2"),
        ("root", 0, "root,0,a,2"),
        ("4", 4, "label,3"),
    ] {
        add_line(edges, format!("references-full-{name}"), number, &text, line);
    }
}

/// 1,024 record lines and the next.
fn records(edges: &mut Vec<Edge>) {
    let mut text = Text::ask(0, 4);
    text.free("p");
    text.fun("p");
    add_records(&mut text, limits::RECORDS - 2);
    add_line(edges, "records-1024", 0, &text, "root,0,r,0");
    text.line("retain");
    for (name, number, line) in [
        ("term", 0, "leaf"),
        ("retain", FULL_RECORDS, "retain"),
        ("root", FULL_RECORDS, "root,0,r,0"),
        ("root-other", FULL_RECORDS, "root,1,r,0"),
        ("fun", FULL_RECORDS, "fun,f"),
        ("def", FULL_RECORDS, "def,f,0"),
        ("assume", FULL_RECORDS, "assume,a,0,0"),
        ("assume-5", 5, "assume,p,0,0"),
        ("fun-5", 5, "fun,p"),
        ("def-5", 5, "def,p,0"),
        ("assume-4", 4, "assume,p,0,1"),
        ("assume-3", 3, "assume,p,2,1"),
        ("retain-2", 2, "retain,"),
        ("fun-1", 1, "fun,p,p"),
    ] {
        add_line(edges, format!("records-full-{name}"), number, &text, line);
    }
    let mut text = Text::ask(0, 4);
    let mut term = text.free("p0");
    for index in 0..limits::RECORDS / 4 {
        let next = text.free(format!("p{}", index + 1));
        let fact = text.all(next, &[vec![term]]);
        text.assume(format!("a{index}"), 0, fact);
        text.def(format!("d{index}"), term);
        text.fun(format!("p{index}"));
        text.root(u32::from(index > 0), "r", term);
        term = next;
    }
    add(edges, "records-1024-chain", 0, text);
}

/// A file with so many hide lines, each of a name of its own.
fn hiding(count: usize, options: u32) -> Text {
    let mut text = Text::ask(0, options);
    plain_names(count).for_each(|name| text.hide(name));
    text
}

/// Where a hide line may stand and what its fields are; hide lines among 1,024 record lines.
fn hide_lines(edges: &mut Vec<Edge>) {
    let head = hiding(1, 0);
    for (name, line, number) in [
        ("again", "hide,n0", 0),
        ("another", "hide,p", 0),
        ("one-of-the-nine", "hide,Valid", 0),
        ("like-a-number", "hide,0", 0),
        ("like-a-kind", "hide,hide", 0),
        ("no-name", "hide", 1),
        ("two-names", "hide,p,q", 1),
        ("comma", "hide,p,", 1),
        ("two-commas", "hide,,", 1),
        ("empty", "hide,", 2),
        ("blank", "hide,p q", 2),
        ("byte-7f", "hide,p\x7f", 2),
        ("return", "hide,p\r", 2),
        ("upper", "Hide,p", 1),
        ("longer", "hides,p", 1),
        ("ask", "ask,0,0", 1),
    ] {
        add_line(edges, format!("hide-line-{name}"), number, &head, line);
    }
    for (length, number) in [(1, 0), (255, 0), (256, 2), (300, 2)] {
        add_line(edges, format!("name-{length}-hide"), number, &head, format!("hide,{}", "x".repeat(length)));
    }
    for line in ["leaf", "free,p", "fun,p", "retain", "retain,p"] {
        let mut text = head.clone();
        text.line(line);
        for (name, hide) in [("good", "hide,p"), ("empty", "hide,"), ("long", "hide,p,q")] {
            add_line(edges, format!("hide-after-{}-{name}", line.replace(',', "-")), 1, &text, hide);
        }
    }
    add_line(edges, "hide-line-first", 1, &Text::default(), "hide,p");
    let mut cut = head.clone();
    cut.raw(b"hide,p");
    add(edges, "hide-line-no-0a", 1, cut);

    let full = hiding(limits::RECORDS, 4);
    add_line(edges, "hide-lines-1024", 0, &hiding(limits::RECORDS - 1, 4), "hide,z");
    for (name, number, line) in [
        ("hide", FULL_RECORDS, "hide,z"),
        ("hide-again", FULL_RECORDS, "hide,n0"),
        ("hide-2", 2, "hide,"),
        ("hide-1", 1, "hide"),
        ("retain", FULL_RECORDS, "retain"),
        ("term", 0, "call,n0"),
    ] {
        add_line(edges, format!("hide-lines-1024-{name}"), number, &full, line);
    }
    for hides in [1, 512] {
        let mut full = hiding(hides, 4);
        full.free("p");
        full.free("n0");
        add_records(&mut full, limits::RECORDS - hides - 1);
        add_line(edges, format!("hide-lines-{hides}-of-1024"), 0, &full, "assume,n0,0,1");
        full.line("retain");
        for (name, number, line) in [
            ("hide", 1, "hide,n0"),
            ("fun", FULL_RECORDS, "fun,n0"),
            ("root", FULL_RECORDS, "root,0,n0,1"),
            ("assume", FULL_RECORDS, "assume,n0,0,1"),
        ] {
            add_line(edges, format!("hide-lines-{hides}-full-{name}"), number, &full, line);
        }
    }
    let mut text = hiding(limits::RECORDS - 3, 4);
    text.free("p");
    text.free("n1020");
    text.op("other", &[0, 1]);
    text.fun("p");
    text.fun("n1020");
    add_line(edges, "hide-lines-1021-kept", 0, &text, "root,0,r,2");
}

/// Hidden names count as names, and neither as uses nor in disjuncts, which they may leave empty.
fn hidden_names(edges: &mut Vec<Edge>) {
    let mut text = hiding(2, 0);
    spell_names(&mut text, limits::NAMES - 1);
    text.leaf();
    add_line(edges, "hidden-2048-names", 0, &text, "fun,z");
    text.fun("z");
    add_line(edges, "hidden-2048-names-again", 0, &text, "free,n1");
    add_line(edges, "hidden-2049-names", FULL_NAMES, &text, "free,y");
    let mut text = Text::ask(0, 0);
    text.hide("only");
    spell_names(&mut text, limits::NAMES - 1);
    add_line(edges, "hidden-2048-names-one-hidden-only", 0, &text, "fun,n0");
    add_line(edges, "hidden-2049-names-one-hidden-only", FULL_NAMES, &text, "fun,z");

    // The trimmed token is the hidden name, which has been counted.
    let mut text = Text::ask(0, 0);
    text.hide("f");
    let marker = text.free("__uu__PartialApp");
    let token = text.free("f@tok");
    let apply = text.call("ApplyTT", &[marker, token]);
    text.call("Valid", &[apply]);
    spell_names(&mut text, limits::NAMES - 6);
    add_line(edges, "hidden-trimmed-token", 0, &text, "assume,a,0,3");
    text.assume("a", 0, 3);
    add_line(edges, "hidden-trimmed-token-next", FULL_NAMES, &text, "free,z");

    // Ten uses a root where 54 of 64 names are hidden.
    let mut text = hiding(54, 0);
    let wide = add_wide_call(&mut text, 64);
    for _ in 0..614 {
        text.root(1, "r", wide);
    }
    for (name, number, line) in [
        ("6144", 0, "root,0,r,60".to_owned()),
        ("hidden", 0, "root,0,r,0".to_owned()),
        ("6153", FULL_TRIGGERS, format!("root,0,r,{wide}")),
    ] {
        let mut text = text.clone();
        (0..3).for_each(|_| text.root(0, "r", 60));
        add_line(edges, format!("hidden-uses-{name}"), number, &text, line);
    }

    // Each group has a name that is hidden and one that is not, or a hidden one alone.
    for (groups, number) in [(1_024, 0), (1_025, FULL_TRIGGERS)] {
        let mut text = Text::ask(0, 0);
        text.hide("p");
        let [p, q] = [text.free("p"), text.call("q", &[])];
        text.all(p, &[vec![vec![p, q]; groups], vec![vec![p]; limits::ENTRIES / 2]].concat());
        text.root(0, "r", q);
        add_line(edges, format!("hidden-entries-{}", groups + limits::ENTRIES / 2), number, &text, "assume,a,0,2");
    }
}

/// Files whose run takes the most steps: 1,024 rounds, 2,048 entries on one name, 1,024 disjuncts that share a name.
fn costly(edges: &mut Vec<Edge>) {
    let mut text = Text::ask(0, 0);
    let start = text.free("p0");
    let mut term = start;
    for index in 0..limits::RECORDS - 1 {
        let next = text.free(format!("p{}", index + 1));
        let fact = text.all(next, &[vec![term]]);
        text.assume(format!("a{index}"), 0, fact);
        term = next;
    }
    text.root(0, "r", start);
    add(edges, "costly-1024-rounds", 0, text);

    let mut text = Text::ask(0, 0);
    let term = text.free("p");
    let twice = text.all(term, &[vec![term], vec![term]]);
    let often = text.all(term, &[vec![term], vec![term], vec![term], vec![term]]);
    for index in 0..limits::RECORDS - 2 {
        text.assume(format!("a{index}"), 0, twice);
    }
    text.assume("b", 0, often);
    text.root(0, "r", term);
    add(edges, "costly-2048-entries-on-one-name", 0, text);

    let mut text = Text::ask(0, 0);
    let shared = text.free("p");
    let groups: Vec<Vec<TermId>> =
        (0..limits::ENTRIES / 2).map(|index| vec![shared, text.free(format!("q{index}"))]).collect();
    let fact = text.all(shared, &groups);
    text.assume("a", 0, fact);
    text.root(0, "r", shared);
    add(edges, "costly-1024-disjuncts-share-a-name", 0, text);
}

/// Definitions whose bodies lead far: one after the other, in a circle, all to all, one to all declarations.
fn bodies(edges: &mut Vec<Edge>) {
    // As many definitions as there can be beside a root, each with the next in its body, by line up and down.
    for (name, options, last) in [("up", 12, "end"), ("down", 12, "end"), ("circle", 12, "d0"), ("4-alone", 4, "end")] {
        let count = limits::RECORDS - 1;
        let mut text = Text::ask(0, options);
        let next = |index: usize| if index == count { last.to_owned() } else { format!("d{index}") };
        let terms: Vec<TermId> = (0..=count).map(|index| text.free(next(index))).collect();
        let mut defs: Vec<usize> = (0..count).collect();
        if name == "down" {
            defs.reverse();
        }
        for index in defs {
            text.def(format!("d{index}"), terms[index + 1]);
        }
        text.root(0, "r", terms[0]);
        add(edges, format!("bodies-1023-{name}"), 0, text);
    }

    let mut text = Text::ask(0, 12);
    let terms: Vec<TermId> = plain_names(76).map(|name| text.free(name)).collect();
    let all = text.op("other", &terms);
    for name in plain_names(76) {
        text.def(name, all);
    }
    text.root(0, "r", terms[40]);
    add(edges, "bodies-76-all-to-all", 0, text);

    let mut text = Text::ask(0, 12);
    let wide = add_wide_call(&mut text, 1_021);
    for name in plain_names(1_020) {
        text.fun(name);
    }
    text.def("g", wide);
    text.def("wide", 7);
    let goal = text.free("g");
    text.root(0, "r", goal);
    let full = Case::new("", text.finish());
    for (room, number) in [(1_021, 8), (1_022, 0)] {
        let case = Case { name: format!("bodies-room-{room}"), ..full.clone().with_room(room) };
        edges.push(Edge { case, number });
    }
}

/// 2,048 trigger entries and the next.
fn entries(edges: &mut Vec<Edge>) {
    let mut text = Text::ask(0, 0);
    text.free("p");
    for (total, number) in [(2_047, 0), (2_048, 0), (2_049, FULL_TRIGGERS), (30_000, FULL_TRIGGERS)] {
        let mut empty = text.clone();
        add_empty_groups(&mut empty, total);
        add_line(edges, format!("entries-{total}-empty"), number, &empty, "assume,a,0,1");
        add_line(edges, format!("entries-{total}-empty-pretyping"), number, &empty, "assume,a,1,1");
    }
    let mut groups = Text::ask(0, 0);
    let parts: Vec<TermId> = plain_names(1_024).map(|name| groups.free(name)).collect();
    groups.all(0, &[parts.clone(), parts]);
    groups.root(0, "r", 1_023);
    add_line(edges, "entries-2048-names", 0, &groups, "assume,a,0,1024");
    groups.op("true", &[]);
    groups.op("other", &[]);
    groups.assume("a", 0, 1_024);
    for (name, number, line) in [
        ("drop", 0, "assume,b,0,1025"),
        ("ambient", 0, "assume,b,0,1026"),
        ("empty", FULL_TRIGGERS, "assume,assumption_b,0,1025"),
        ("one", FULL_TRIGGERS, "assume,assumption_b,0,0"),
        ("5", 5, "assume,a,0,1024"),
        ("4", 4, "assume,a,0,1027"),
    ] {
        add_line(edges, format!("entries-full-{name}"), number, &groups, line);
    }
    let mut two = text.clone();
    let half = add_empty_groups(&mut two, 1_024);
    two.op("true", &[]);
    two.assume("a", 1, half);
    two.assume("b", 0, half);
    add_line(edges, "entries-two-facts-empty-drop", 0, &two, "assume,c,0,2");
    add_line(edges, "entries-two-facts-empty-next", FULL_TRIGGERS, &two, "assume,assumption_c,0,2");

    for (parts, number) in [(32, 0), (33, FULL_TRIGGERS)] {
        let mut text = text.clone();
        let all = add_empty_groups(&mut text, 32);
        let named = text.all(0, &vec![vec![0]; 32]);
        text.op("and", &[[all, named]; 33].concat()[..parts * 2]);
        add_line(edges, format!("entries-and-{parts}"), number, &text, "assume,a,0,3");
    }
    let mut none = text.clone();
    add_empty_groups(&mut none, 2_048);
    none.op("and", &[1]);
    none.assume("a", 0, 2);
    none.op("and", &[0, 0]);
    none.root(0, "r", 0);
    add_line(edges, "entries-full-no-disjunct", 0, &none, "assume,b,0,3");

    for (groups, number) in [(0, 0), (1, 0), (2, 0), (2_048, 0), (2_049, FULL_TRIGGERS)] {
        let mut text = text.clone();
        let payload = add_empty_groups(&mut text, groups);
        let squash = text.call("Prims.squash", &[0, payload]);
        text.call("HasType", &[0, squash]);
        add_line(edges, format!("entries-squash-{groups}"), number, &text, "assume,a,0,3");
    }
}

/// 6,144 name uses and the next.
fn uses(edges: &mut Vec<Edge>) {
    let mut text = Text::ask(0, 0);
    let wide = add_wide_call(&mut text, 64);
    let leaf = text.leaf();
    let excluded = text.call("Valid", &[leaf]);
    let labelled = text.label(0);
    let pair = text.op("other", &[0, 0, 1]);
    let truth = text.op("true", &[0]);
    for record in 0..95 {
        match record % 3 {
            0 => text.assume(format!("a{record}"), 0, labelled),
            1 => text.def(format!("d{record}"), wide),
            _ => text.root(record % 2, "r", wide),
        }
    }
    // 32 facts with one name each, 32 defs and 31 roots with 64: 4,064 uses.
    for _ in 0..32 {
        text.root(2, "r", wide);
    }
    text.root(2, "r", pair);
    // 2,050 more: 30 are left, and the next lines take 29 of them.
    for index in 0..29 {
        text.assume(format!("t{index}"), 0, truth);
    }
    for (name, number, line) in [
        ("6144-root", 0, format!("root,0,r,{labelled}")),
        ("6145-root", FULL_TRIGGERS, format!("root,3,r,{pair}")),
        ("6144-def", 0, format!("def,z,{labelled}")),
        ("6145-def", FULL_TRIGGERS, format!("def,z,{pair}")),
        ("6144-assume", 0, format!("assume,z,0,{labelled}")),
        ("6145-assume", FULL_TRIGGERS, format!("assume,z,0,{pair}")),
        ("6145-assume-5", 5, format!("assume,t0,0,{pair}")),
        ("6145-def-5", 5, format!("def,t0,{pair}")),
        ("6145-def-3", 3, "def,z,x".to_owned()),
    ] {
        add_line(edges, format!("uses-{name}"), number, &text, line);
    }
    text.root(0, "r", labelled);
    for (name, number, line) in [
        ("excluded", 0, format!("root,0,r,{excluded}")),
        ("drop", FULL_TRIGGERS, format!("assume,z,0,{truth}")),
        ("leaf", 0, format!("assume,z,0,{leaf}")),
        ("term", 0, format!("label,{wide}")),
    ] {
        add_line(edges, format!("uses-full-{name}"), number, &text, line);
    }
}

/// 65,535 bytes and the next.
fn bytes(edges: &mut Vec<Edge>) {
    for (total, number) in [(65_534, 0), (65_535, 0), (65_536, 9), (65_600, 9)] {
        let mut text = Text::ask(0, 0);
        text.leaf();
        text.assume("a", 0, 0);
        add_bytes(&mut text, total);
        add(edges, format!("bytes-{total}"), number, text);
    }
    let mut text = Text::ask(0, 0);
    add_bytes(&mut text, 65_500);
    text.raw(&[b'f'; 35]);
    add(edges, "bytes-65535-no-0a", 1, text.clone());
    text.raw(b"f");
    add(edges, "bytes-65536-no-0a", 9, text);
    for (name, number, byte) in [("0a", 1, b'\n'), ("comma", 1, b','), ("00", 1, 0), ("ff", 1, 0xff)] {
        let mut text = Text::default();
        text.raw(&[byte]);
        add(edges, format!("bytes-1-{name}"), number, text);
    }
    let mut text = Text::default();
    text.raw(&vec![0xff; 65_535]);
    add(edges, "bytes-65535-ff", 1, text.clone());
    text.raw(b"\xff");
    add(edges, "bytes-65536-ff", 9, text);
    let mut text = Text::ask(0, 0);
    text.raw(&vec![b','; 65_526]);
    text.line("");
    add(edges, "bytes-65535-commas", 1, text);
    add(edges, "bytes-0", 1, Text::default());
}

/// Shapes that name far more than they spell, and long runs.
fn ugly(edges: &mut Vec<Edge>) {
    // 16,000 parts with 16,000 disjuncts each.
    let mut text = Text::ask(0, 0);
    text.free("p");
    let all = add_empty_groups(&mut text, 16_000);
    text.op("and", &vec![all; 16_000]);
    add_line(edges, "ugly-and-of-alls", FULL_TRIGGERS, &text, "assume,a,0,2");
    add_line(edges, "ugly-and-of-alls-root", 0, &text, "root,0,a,2");

    for kind in ["all", "some"] {
        let mut text = Text::ask(0, 4);
        text.free("p");
        text.line(format!("{kind},0,30000{}", ",0".repeat(30_000)));
        for (record, number) in [("assume", if kind == "all" { FULL_TRIGGERS } else { 0 }), ("root", 0), ("def", 0)] {
            let line = match record {
                "assume" => "assume,a,0,1",
                "root" => "root,0,r,1",
                _ => "def,d,1",
            };
            add_line(edges, format!("ugly-30000-groups-{kind}-{record}"), number, &text, line);
        }
    }

    // Parts that each come down to an `all` of no group through 2,000 labels, asked by many facts.
    let mut text = Text::ask(0, 0);
    text.free("p");
    let mut inner = add_empty_groups(&mut text, 0);
    for _ in 0..2_000 {
        inner = text.label(inner);
    }
    let conjunction = text.op("and", &vec![inner; 5_000]);
    for index in 0..500 {
        text.assume(format!("a{index}"), 0, conjunction);
    }
    text.root(0, "r", conjunction);
    add(edges, "ugly-labels-of-parts", 0, text);

    // 4,094 labels over an `all` with one group.
    let mut text = Text::ask(0, 0);
    text.free("p");
    let mut inner = text.all(0, &[vec![0]]);
    for _ in 0..4_094 {
        inner = text.label(inner);
    }
    text.assume("a", 0, inner);
    text.root(0, "r", inner);
    add(edges, "ugly-label-run", 0, text);

    // Each term names the one before twice: walked tree by tree it would never end.
    let mut text = Text::ask(0, 0);
    text.free("p");
    let mut shared = text.leaf();
    for index in 0..2_000 {
        shared = match index % 4 {
            0 => text.op("other", &[shared, shared]),
            1 => text.bind(shared, &[shared]),
            2 => text.some(shared, &[vec![shared, shared]]),
            _ => text.call(format!("f{}", index % 50), &[shared, shared]),
        };
    }
    let fact = text.all(shared, &[vec![shared]]);
    text.assume("a", 0, fact);
    text.root(0, "r", shared);
    add(edges, "ugly-doubled", 0, text);

    // One deep chain of calls.
    let mut text = Text::ask(0, 0);
    let mut deep = text.free("p");
    for _ in 0..4_094 {
        deep = text.call("f", &[deep]);
    }
    text.op("eq", &[deep, 0]);
    text.assume("a", 0, 4_095);
    text.root(0, "r", 0);
    add(edges, "ugly-deep", 0, text);

    // As many rounds as there are facts, and one more for the last and for its end.
    let mut text = Text::ask(7, 0);
    let mut term = text.free("p0");
    text.root(7, "r", term);
    for index in 1..=1_000 {
        let next = text.free(format!("p{index}"));
        let fact = text.all(next, &[vec![term]]);
        text.assume(format!("a{}", 1_001 - index), 0, fact);
        term = next;
    }
    add(edges, "ugly-rounds", 0, text);

    // One fact that is triggered again in each round.
    let mut text = Text::ask(0, 0);
    let frees: Vec<TermId> = plain_names(500).map(|name| text.free(name)).collect();
    let groups: Vec<Vec<TermId>> = frees.iter().map(|&free| vec![free]).collect();
    let many = text.all(frees[0], &groups);
    text.assume("z", 1, many);
    for index in 1..500 {
        let step = text.all(frees[index], &[vec![frees[index - 1]]]);
        text.assume(format!("a{index}"), 0, step);
    }
    text.root(0, "r", frees[0]);
    add(edges, "ugly-triggered-again", 0, text);
}

/// Slices that are too short, and the order of the refusals that belong to the caller.
fn slices(edges: &mut Vec<Edge>) {
    let file = b"ask,0,4\nfree,p\nall,0,1,1,0\nassume,a,0,1\nassume,b,0,1\nfun,p\nroot,0,r,0\n";
    let good = Case::new("", file.to_vec());
    let mut add = |name: String, number: u32, case: Case| {
        edges.push(Edge { case: Case { name, ..case }, number });
    };
    for (room, number) in [(0, 8), (1, 8), (2, 8), (3, 0), (4, 0), (1_040, 0)] {
        add(format!("room-{room}"), number, good.clone().with_room(room));
    }
    for index in 0..6 {
        for words in [0, 16_383, 16_385, 16_400] {
            let mut works = LONG_ENOUGH;
            works[index] = words;
            let number = if words < limits::WORK_WORDS { 7 } else { 0 };
            add(format!("work-{index}-{words}"), number, good.clone().with_works(works));
        }
    }
    let short = [16_384, 16_384, 16_383, 16_384, 16_384, 16_384];
    let uneven = [16_384, 16_385, 16_386, 16_387, 16_388, 16_389];
    let line = |line: &[u8]| Case::new("", line.to_vec());
    let long = Case::new("", vec![b'x'; 65_536]);
    add("works-none".into(), 7, good.clone().with_works([0; 6]));
    add("works-uneven".into(), 0, good.clone().with_works(uneven));
    add("works-uneven-refused".into(), 1, line(b"ask,0\n").with_works(uneven));
    add("works-7-before-9".into(), 7, long.clone().with_works(short));
    add("works-7-before-1".into(), 7, line(b"").with_works(short));
    add("works-7-before-8".into(), 7, good.clone().with_works(short).with_room(0));
    add("works-9-uneven".into(), 9, long.with_works(uneven).with_room(0));
    add("room-1-before-8".into(), 1, line(b"ask,0,0\nleaf\nassume,a,0,0\nleaf").with_room(0));
    add("room-0-none-kept".into(), 0, line(b"ask,0,0\n").with_room(0));
    add("room-8-uneven".into(), 8, good.with_works(uneven).with_room(2));

    let mut text = Text::ask(0, 0);
    text.leaf();
    for index in 0..limits::RECORDS {
        text.assume(format!("a{index}"), 0, 0);
    }
    let full = Case::new("", text.finish());
    for (room, number) in [(1_023, 8), (1_024, 0), (1_025, 0)] {
        add(format!("room-{room}-of-1024"), number, full.clone().with_room(room));
    }
}

#[cfg(test)]
mod tests {
    use std::collections::HashSet;

    use super::*;
    use crate::{filter, filter_file, Outcome};

    #[test]
    fn each_edge_is_refused_as_it_says() {
        let edges = edges();
        let mut names = HashSet::new();
        for Edge { case, number } in &edges {
            assert!(names.insert(&case.name), "{} stands twice", case.name);
            let lines = case.file.strip_suffix(b"\n").unwrap_or(&case.file);
            let last_line = 1 + lines.iter().filter(|&&byte| byte == b'\n').count() as u32;
            match filter(&case.file, case.works, case.room) {
                Outcome::Kept(_) => assert_eq!(*number, 0, "{}", case.name),
                Outcome::Refused { number: actual, place } => {
                    assert_eq!(actual, *number, "{}", case.name);
                    match actual {
                        1..=6 | 10..=13 => assert_eq!(place, last_line, "{}", case.name),
                        8 => {
                            let kept = filter_file(&case.file).lines().len();
                            assert!(place as usize == kept && kept > case.room, "{}", case.name);
                        }
                        _ => assert_eq!(place, 0, "{}", case.name),
                    }
                }
            }
        }
        for number in 0..=13 {
            assert!(edges.iter().any(|edge| edge.number == number), "no edge for {number}");
        }
    }
}
