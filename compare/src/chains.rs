//! Files with also lines at their edges: how many there may be with the ask lines, where they may stand and what their field
//! is, a result slice for all lists, and stretches that must go on from what the lines before them met and reached.

use crate::asks::add_background;
use crate::case::Case;
use crate::edges::{self, add, add_line, Edge, FULL_ASKS, FULL_NAMES, FULL_RECORDS, FULL_TRIGGERS};
use crate::limits;
use crate::text::{Position, Text};
use crate::LONG_ENOUGH;

/// The start of a file with so many ask and also lines: chains of these lengths, again and again, of four queries in turn.
fn chained(lengths: &[usize], count: usize) -> Text {
    let starts = lengths.iter().cycle().flat_map(|&length| (0..length).map(|index| index == 0));
    let positions: Vec<Position> = starts
        .zip(0..count as u32)
        .map(
            |(starts, index)| {
                if starts {
                    Position::Ask(index % 4, (7 * index + 4) % 16)
                } else {
                    Position::Also(index % 4)
                }
            },
        )
        .collect();
    Text::positions(&positions)
}

/// How many ask and also lines there may be, and what the line after sixteen of them may be.
pub fn counts(edges: &mut Vec<Edge>) {
    for (name, lengths) in [("one", &[16][..]), ("pairs", &[2]), ("mixed", &[1, 4, 2]), ("late", &[1, 1, 1, 13])] {
        for count in [2, 3, 5, 15, 16] {
            let mut text = chained(lengths, count);
            add_background(&mut text);
            add(edges, format!("also-{name}-{count}"), 0, text);
        }
        let full = chained(lengths, limits::ASKS);
        add(edges, format!("also-{name}-16-alone"), 0, full.clone());
        for (line_name, line, number) in [
            ("also", "also,0", FULL_ASKS),
            ("ask", "ask,0,0", FULL_ASKS),
            ("no-field", "also", FULL_ASKS),
            ("comma", "also,", FULL_ASKS),
            ("left-over", "also,0,0", FULL_ASKS),
            ("query-256", "also,256", FULL_ASKS),
            ("no-number", "also,x y", FULL_ASKS),
            ("ask-no-field", "ask", FULL_ASKS),
            ("return", "also,0\r", FULL_ASKS),
            ("return-in-the-kind", "also\r", 1),
            ("upper", "Also,0", 1),
            ("longer", "alsos,0", 1),
            ("shorter", "als,0", 1),
            ("blank", "also ,0", 1),
            ("empty", "", 1),
            ("hide", "hide,p", 0),
            ("term", "leaf", 0),
            ("record", "retain", 0),
        ] {
            add_line(edges, format!("also-{name}-17th-{line_name}"), number, &full, line);
        }
        let mut cut = full.clone();
        cut.raw(b"also,0");
        add(edges, format!("also-{name}-17th-no-0a"), 1, cut);
        for (before, line) in [("hide", "hide,p"), ("term", "leaf"), ("record", "retain")] {
            let mut text = full.clone();
            text.line(line);
            add_line(edges, format!("also-{name}-17th-after-{before}"), 1, &text, "also,0");
        }
    }
    // Sixteen ask lines leave no room for an also line.
    let asks = Text::asks(&[(0, 0); limits::ASKS]);
    for line in ["also,0", "also", "also,256"] {
        add_line(edges, format!("also-after-16-asks-{}", line.replace(',', "-")), FULL_ASKS, &asks, line);
    }
}

/// The field of an also line, and where it may not stand.
pub fn lines(edges: &mut Vec<Edge>) {
    for (before, text) in [("ask", Text::ask(0, 4)), ("also", chained(&[2], 2)), ("15", chained(&[3, 1], 15))] {
        for (line, number) in [
            ("also,0", 0),
            ("also,255", 0),
            ("also", 1),
            ("also,0,0", 1),
            ("also,0,", 1),
            ("also,", 3),
            ("also,256", 3),
            ("also,65536", 3),
            ("also,00", 3),
            ("also,-1", 3),
            ("also,p", 3),
            ("also, 0", 3),
        ] {
            let name = line.replace(',', "-").replace(' ', "blank");
            add_line(edges, format!("also-after-{before}-{name}"), number, &text, line);
        }
    }
    for (name, line) in [("hide", "hide,p"), ("leaf", "leaf"), ("fun", "fun,p"), ("retain", "retain")] {
        let mut text = chained(&[2], 2);
        text.line(line);
        for (fields, also) in [("good", "also,0"), ("none", "also"), ("bad", "also,256"), ("two", "also,0,0")] {
            add_line(edges, format!("also-after-{name}-{fields}"), 1, &text, also);
        }
        // An ask line may not follow there either, and a hide line may follow a chain.
        add_line(edges, format!("also-then-{name}-then-ask"), 1, &text, "ask,0,0");
    }
    let mut hiding = chained(&[3], 3);
    add_line(edges, "also-then-hide", 0, &hiding, "hide,p");
    hiding.hide("p");
    add_line(edges, "also-then-hide-then-hide", 0, &hiding, "hide,q");
    for line in ["also,0", "also", "also,256", "also,0,0"] {
        add_line(edges, format!("also-on-line-1-{}", line.replace(',', "-")), 1, &Text::default(), line);
    }
}

/// The other limits with sixteen lines in chains, which count towards none of them but the bytes, and a result slice that
/// holds all lists or does not.
pub fn limits_and_rooms(edges: &mut Vec<Edge>) {
    let mut records = chained(&[16], limits::ASKS);
    edges::add_records(&mut records, limits::RECORDS - 1);
    add_line(edges, "also-16-records-1024", 0, &records, "fun,p");
    records.line("retain");
    add_line(edges, "also-16-records-1025", FULL_RECORDS, &records, "fun,p");

    let mut names = chained(&[16], limits::ASKS);
    edges::spell_names(&mut names, limits::NAMES - 1);
    add_line(edges, "also-16-names-2048", 0, &names, "fun,0");
    names.fun("0");
    add_line(edges, "also-16-names-2049", FULL_NAMES, &names, "free,15");

    let mut uses = chained(&[16], limits::ASKS);
    let wide = edges::add_wide_call(&mut uses, 64);
    for query in 0..limits::USES as u32 / 64 {
        uses.root(query % 4, "r", wide);
    }
    add_line(edges, "also-16-uses-6144", 0, &uses, "fun,wide");
    add_line(edges, "also-16-uses-6145", FULL_TRIGGERS, &uses, "root,9,r,0");

    for (count, total, number) in [(16, limits::BYTES, 0), (17, limits::BYTES + 1, 9)] {
        let mut text = chained(&[16], count);
        edges::add_bytes(&mut text, total);
        add(edges, format!("also-{count}-bytes-{total}"), number, text);
    }

    let mut add = |name: String, number: u32, case: Case| {
        edges.push(Edge { case: Case { name, ..case }, number });
    };
    // No line, two, three, the same three again.
    let mut text = Text::chain(9, 4, &[1, 0, 1]);
    let [p, q] = ["p", "q"].map(|name| text.free(name));
    let fact = text.all(q, &[vec![p]]);
    text.assume("a", 0, fact);
    text.fun("p");
    text.fun("q");
    text.root(0, "r", p);
    text.root(1, "r", q);
    text.root(1, "r", p);
    let four = Case::new("", text.finish());
    let kept = crate::filter_file(&four.file).lines().len();
    for room in [0, 1, kept - 1, kept, kept + 1] {
        let number = if room < kept { 8 } else { 0 };
        add(format!("also-room-{room}-of-{kept}"), number, four.clone().with_room(room));
    }
    let many = Case::new("", chained(&[16], limits::ASKS + 1).finish());
    add("also-13-before-8".into(), FULL_ASKS, many.clone().with_room(0));
    let mut works = LONG_ENOUGH;
    works[5] -= 1;
    add("also-7-before-13".into(), 7, many.with_works(works));

    // Every list is as long as it can be.
    let mut text = Text::chain(0, 0, &[0; limits::ASKS - 1]);
    text.leaf();
    for index in 0..limits::RECORDS {
        text.assume(format!("a{index}"), 0, 0);
    }
    let full = Case::new("", text.finish());
    for (room, number) in [(limits::ROOM - 1, 8), (limits::ROOM, 0)] {
        add(format!("also-room-{room}-of-{}", limits::ROOM), number, full.clone().with_room(room));
    }
}

/// Stretches one after the other.
pub fn stretches(edges: &mut Vec<Edge>) {
    // Each options number, with a chain over all queries and with chains of two.
    for options in 0..=limits::OPTIONS {
        for (name, also) in [("0-1-2", &[1, 2][..]), ("2-1-0", &[1, 0]), ("1-1-1", &[1, 1]), ("9-1", &[1])] {
            let first = name[..1].parse().unwrap_or_default();
            let mut text = Text::chain(first, options, also);
            add_background(&mut text);
            add(edges, format!("also-options-{options}-of-{name}"), 0, text);
        }
    }

    // The roots of the queries stand in one line of facts of which each brings the next: further down in each stretch, so
    // that it ends where the one before began, or further up, so that it reaches nothing new.
    let step = 8;
    let down: Vec<u32> = (1..limits::ASKS as u32).collect();
    let up: Vec<u32> = down.iter().rev().map(|&query| query - 1).collect();
    for (name, first, also) in [("down", 0, down), ("up", limits::ASKS as u32 - 1, up)] {
        for options in [0, 2, 4] {
            let mut text = Text::chain(first, options, &also);
            let mut term = text.free("p0");
            for index in 0..limits::ASKS * step {
                if index % step == 0 {
                    text.root((index / step) as u32, "r", term);
                }
                let next = text.free(format!("p{}", index + 1));
                let fact = text.all(next, &[vec![term]]);
                text.assume(format!("a{index}"), u32::from(index % 20 == 19), fact);
                if index % 3 == 0 {
                    text.fun(format!("p{index}"));
                }
                term = next;
            }
            add(edges, format!("also-line-{name}-{options}"), 0, text);
        }
    }

    // Each query brings one name of one disjunct, of which the last is met in the last stretch.
    let mut text = Text::chain(0, 4, &(1..limits::ASKS as u32).collect::<Vec<_>>());
    let names: Vec<_> = (0..limits::ASKS).map(|index| text.free(format!("p{index}"))).collect();
    let fact = text.all(names[0], std::slice::from_ref(&names));
    text.assume("all_of_them", 0, fact);
    let fact = text.all(names[0], &[names[..2].to_vec(), names[14..].to_vec(), vec![]]);
    text.assume("two_of_them", 0, fact);
    for (query, &name) in names.iter().enumerate() {
        text.root(query as u32, "r", name);
        text.fun(format!("p{query}"));
    }
    add(edges, "also-a-name-in-each-stretch", 0, text);

    // As many rounds as there can be, in the ask line's run or in a stretch, and then once more.
    for (name, positions) in [
        ("first", [Position::Ask(0, 0), Position::Also(1), Position::Also(0)]),
        ("second", [Position::Ask(1, 0), Position::Also(0), Position::Also(0)]),
        ("again", [Position::Ask(0, 1), Position::Also(0), Position::Ask(0, 0)]),
    ] {
        let mut text = Text::positions(&positions);
        let mut term = text.free("p0");
        text.root(0, "r", term);
        for index in 1..limits::RECORDS {
            let next = text.free(format!("p{index}"));
            let fact = text.all(next, &[vec![term]]);
            text.assume(format!("a{index}"), 0, fact);
            term = next;
        }
        add(edges, format!("also-1024-rounds-{name}"), 0, text);
    }

    // A hidden name is hidden in every stretch, and a macro of the start is opened in one.
    let mut text = Text::chain(9, 12, &[0, 1]);
    text.hide("BoxInt");
    text.hide("p");
    add_background(&mut text);
    let opened = text.free("is-BoxInt");
    let boxed = text.free("BoxInt");
    let (marker, token) = (text.free("__uu__PartialApp"), boxed);
    let apply = text.call("ApplyTT", &[marker, token]);
    let valid = text.call("Valid", &[apply]);
    text.assume("on_box", 0, valid);
    text.root(1, "goal", opened);
    add(edges, "also-hidden-and-opened", 0, text);

    // Two chains of one query: the second starts anew.
    for options in [0, 3, 12] {
        let positions = [
            Position::Ask(0, options),
            Position::Also(1),
            Position::Ask(1, options),
            Position::Also(0),
            Position::Also(2),
        ];
        let mut text = Text::positions(&positions);
        add_background(&mut text);
        add(edges, format!("also-two-chains-{options}"), 0, text);
    }

    // Bodies are followed for the roots of the whole chain.
    let mut text = Text::chain(0, 12, &[1, 2, 3, 1]);
    let count = 100;
    let terms: Vec<_> = (0..=count).map(|index| text.free(format!("d{index}"))).collect();
    for index in 0..count {
        text.def(format!("d{index}"), terms[index + 1]);
    }
    for (query, index) in [(1, 90), (2, 40), (3, 0)] {
        text.root(query, "r", terms[index]);
    }
    add(edges, "also-bodies", 0, text);
}
