//! Files with several ask lines at their edges: how many there may be, where they may stand and what their fields are, other
//! limits with sixteen of them, a result slice for all lists, and runs that must leave nothing for the next.

use crate::case::Case;
use crate::edges::{self, add, add_line, Edge, FULL_ASKS, FULL_NAMES, FULL_RECORDS, FULL_TERMS, FULL_TRIGGERS};
use crate::limits;
use crate::terms::TermId;
use crate::text::Text;
use crate::LONG_ENOUGH;

/// The start of a file with so many ask lines, of three queries in turn and of other options each.
fn asking(count: usize) -> Text {
    let asks: Vec<(u32, u32)> = (0..count as u32).map(|index| (index % 3, (7 * index + 4) % 16)).collect();
    Text::asks(&asks)
}

/// Facts of each sort, definitions that lead on, declarations, and roots of three queries.
pub(crate) fn add_background(text: &mut Text) {
    let [p, q, r, s] = ["p", "q", "r", "s"].map(|name| text.free(name));
    let chain = text.all(q, &[vec![p]]);
    text.assume("on_p", 0, chain);
    let typed = text.all(r, &[vec![q]]);
    text.assume("typed_on_q", 1, typed);
    let both = text.all(s, &[vec![p, r], vec![s]]);
    text.assume("on_both", 0, both);
    let loose = text.op("other", &[s]);
    text.assume("loose", 0, loose);
    let refined = text.free("Tm_refine_1");
    let ambient_root = text.call("HasType", &[refined, refined]);
    text.assume("refined", 1, ambient_root);
    text.def("g", p);
    text.def("p", r);
    text.def("r", s);
    text.fun("s");
    text.fun("q");
    let g = text.call("g", &[]);
    text.root(0, "goal", g);
    text.root(1, "goal", q);
    text.root(1, "goal", p);
}

/// How many ask lines there may be, and what the line after sixteen of them may be.
pub fn counts(edges: &mut Vec<Edge>) {
    for count in [1, 2, 3, 15, 16] {
        let mut text = asking(count);
        add_background(&mut text);
        add(edges, format!("asks-{count}"), 0, text);
        add(edges, format!("asks-{count}-alone"), 0, asking(count));
    }
    let full = asking(limits::ASKS);
    for (name, line, number) in [
        ("good", "ask,0,0", FULL_ASKS),
        ("no-field", "ask", FULL_ASKS),
        ("comma", "ask,", FULL_ASKS),
        ("one-field", "ask,0", FULL_ASKS),
        ("left-over", "ask,0,0,0", FULL_ASKS),
        ("query-256", "ask,256,0", FULL_ASKS),
        ("options-16", "ask,0,16", FULL_ASKS),
        ("no-numbers", "ask,x y,\x7f", FULL_ASKS),
        ("return", "ask,0,0\r", FULL_ASKS),
        ("return-in-the-kind", "ask\r", 1),
        ("upper", "Ask,0,0", 1),
        ("longer", "asks,0,0", 1),
        ("blank", "ask ,0,0", 1),
        ("empty", "", 1),
        ("hide", "hide,p", 0),
        ("hide-2", "hide,", 2),
        ("term", "leaf", 0),
        ("record", "retain", 0),
    ] {
        add_line(edges, format!("asks-17th-{name}"), number, &full, line);
    }
    let mut cut = full.clone();
    cut.raw(b"ask,0,0");
    add(edges, "asks-17th-no-0a", 1, cut);
    for (name, line) in [("hide", "hide,p"), ("term", "leaf"), ("record", "retain")] {
        let mut text = full.clone();
        text.line(line);
        add_line(edges, format!("asks-17th-after-{name}"), 1, &text, "ask,0,0");
        add_line(edges, format!("asks-17th-after-{name}-no-field"), 1, &text, "ask");
    }
}

/// The fields of an ask line that is not the first, and where it may not stand.
pub fn lines(edges: &mut Vec<Edge>) {
    for before in [1, 15] {
        let text = asking(before);
        for (line, number) in [
            ("ask,255,15", 0),
            ("ask", 1),
            ("ask,0", 1),
            ("ask,0,0,0", 1),
            ("ask,0,0,", 1),
            ("ask,,0", 3),
            ("ask,0,", 3),
            ("ask,256,0", 3),
            ("ask,0,16", 3),
            ("ask,256,16", 3),
            ("ask,00,0", 3),
            ("ask,0,015", 3),
        ] {
            add_line(edges, format!("asks-{before}-then-{}", line.replace(',', "-")), number, &text, line);
        }
    }
    for (name, line) in [("hide", "hide,p"), ("leaf", "leaf"), ("fun", "fun,p"), ("retain", "retain")] {
        let mut text = asking(2);
        text.line(line);
        for (fields, ask) in [("good", "ask,0,0"), ("none", "ask"), ("bad", "ask,256,16")] {
            add_line(edges, format!("asks-after-{name}-{fields}"), 1, &text, ask);
        }
    }
    for line in ["hide,p", "leaf", "retain", "Ask,0,0"] {
        add_line(edges, format!("asks-none-then-{}", line.replace(',', "-")), 1, &Text::default(), line);
    }
}

/// The other limits with sixteen ask lines, which count towards none of them but the bytes.
pub fn limits_with_asks(edges: &mut Vec<Edge>) {
    let mut records = asking(limits::ASKS);
    edges::add_records(&mut records, limits::RECORDS - 1);
    add_line(edges, "asks-16-records-1024", 0, &records, "fun,p");
    records.line("retain");
    add_line(edges, "asks-16-records-1025", FULL_RECORDS, &records, "fun,p");

    let mut terms = asking(limits::ASKS);
    edges::add_leaves(&mut terms, limits::TERMS - 1);
    add_line(edges, "asks-16-terms-4096", 0, &terms, "label,4094");
    terms.leaf();
    add_line(edges, "asks-16-terms-4097", FULL_TERMS, &terms, "leaf");

    let mut names = asking(limits::ASKS);
    edges::spell_names(&mut names, limits::NAMES - 1);
    add_line(edges, "asks-16-names-2048", 0, &names, "fun,0");
    names.fun("0");
    add_line(edges, "asks-16-names-2049", FULL_NAMES, &names, "free,15");

    // Entries and uses are those of the file, not of each ask.
    let mut entries = asking(limits::ASKS);
    let p = entries.free("p");
    let all = entries.all(p, &vec![vec![p]; limits::ENTRIES - 1]);
    entries.assume("a", 0, all);
    entries.root(0, "r", p);
    add_line(edges, "asks-16-entries-2048", 0, &entries, "assume,assumption_b,0,0");
    entries.assume("assumption_b", 0, p);
    add_line(edges, "asks-16-entries-2049", FULL_TRIGGERS, &entries, "assume,assumption_c,0,0");

    let mut uses = asking(limits::ASKS);
    let wide = edges::add_wide_call(&mut uses, 64);
    for query in 0..limits::USES as u32 / 64 {
        uses.root(query % 4, "r", wide);
    }
    add_line(edges, "asks-16-uses-6144", 0, &uses, "fun,wide");
    add_line(edges, "asks-16-uses-6145", FULL_TRIGGERS, &uses, "root,9,r,0");

    for (count, total, number) in [(16, limits::BYTES, 0), (17, limits::BYTES + 1, 9)] {
        let mut text = asking(count);
        edges::add_bytes(&mut text, total);
        add(edges, format!("asks-{count}-bytes-{total}"), number, text);
    }
}

/// A result slice that holds all lists or does not, and what comes before 8.
pub fn rooms(edges: &mut Vec<Edge>) {
    let mut add = |name: String, number: u32, case: Case| {
        edges.push(Edge { case: Case { name, ..case }, number });
    };
    // Three lines, none, two.
    let mut text = Text::asks(&[(0, 4), (9, 1), (1, 5)]);
    let [p, q, d] = ["p", "q", "d"].map(|name| text.free(name));
    let fact = text.all(q, &[vec![p]]);
    text.assume("a", 0, fact);
    text.fun("p");
    text.fun("q");
    text.def("d", q);
    text.root(0, "r", p);
    text.root(1, "r", q);
    text.root(1, "r", d);
    let three = Case::new("", text.finish());
    for (room, number) in [(0, 8), (1, 8), (2, 8), (3, 8), (4, 8), (5, 0), (6, 0), (16_400, 0)] {
        add(format!("asks-room-{room}-of-5"), number, three.clone().with_room(room));
    }
    let nothing = Case::new("", asking(limits::ASKS).finish());
    add("asks-room-0-none-kept".into(), 0, nothing.with_room(0));
    let many = Case::new("", asking(limits::ASKS + 1).finish());
    add("asks-13-before-8".into(), FULL_ASKS, many.clone().with_room(0));
    let mut works = LONG_ENOUGH;
    works[3] -= 1;
    add("asks-7-before-13".into(), 7, many.with_works(works));

    // Every list is as long as it can be.
    let mut text = Text::asks(&[(0, 0); limits::ASKS]);
    text.leaf();
    for index in 0..limits::RECORDS {
        text.assume(format!("a{index}"), 0, 0);
    }
    let full = Case::new("", text.finish());
    for (room, number) in [(limits::RECORDS, 8), (limits::ROOM - 1, 8), (limits::ROOM, 0)] {
        add(format!("asks-room-{room}-of-{}", limits::ROOM), number, full.clone().with_room(room));
    }
}

/// Runs one after the other: long ones and short ones, each options number, one ask again and again.
pub fn runs(edges: &mut Vec<Edge>) {
    // The root of a later query stands further down one chain of facts.
    let step = 16;
    let down: Vec<(u32, u32)> = (0..limits::ASKS as u32).map(|query| (query, query)).collect();
    let up: Vec<(u32, u32)> = down.iter().rev().copied().collect();
    let turns: Vec<(u32, u32)> = down.iter().zip(&up).flat_map(|(&low, &high)| [low, high]).take(16).collect();
    for (name, asks) in [("down", down), ("up", up), ("in-turns", turns)] {
        let mut text = Text::asks(&asks);
        let mut term = text.free("p0");
        for index in 0..limits::ASKS * step {
            if index % step == 0 {
                text.root((index / step) as u32, "r", term);
            }
            let next = text.free(format!("p{}", index + 1));
            let fact = text.all(next, &[vec![term]]);
            text.assume(format!("a{index}"), u32::from(index % 50 == 49), fact);
            if index % 5 == 0 {
                text.fun(format!("p{index}"));
            }
            term = next;
        }
        add(edges, format!("asks-runs-{name}"), 0, text);
    }

    let options: Vec<u32> = (0..=limits::OPTIONS).collect();
    for query in 0..3 {
        let asks: Vec<(u32, u32)> = options.iter().map(|&options| (query, options)).collect();
        for (name, asks) in [("every", asks.clone()), ("every-down", asks.into_iter().rev().collect())] {
            let mut text = Text::asks(&asks);
            add_background(&mut text);
            add(edges, format!("asks-options-{name}-of-{query}"), 0, text);
        }
    }
    for options in [0, 4, 15] {
        let mut text = Text::asks(&[(1, options); limits::ASKS]);
        add_background(&mut text);
        add(edges, format!("asks-again-{options}"), 0, text);
    }

    // As many rounds as there can be, twice.
    let mut text = Text::asks(&[(0, 0), (0, 1)]);
    let mut term = text.free("p0");
    text.root(0, "r", term);
    for index in 1..limits::RECORDS {
        let next = text.free(format!("p{index}"));
        let fact = text.all(next, &[vec![term]]);
        text.assume(format!("a{index}"), 0, fact);
        term = next;
    }
    add(edges, "asks-2-of-1024-rounds", 0, text);

    // A hidden name is hidden for every ask.
    let mut text = Text::asks(&[(0, 12), (1, 4), (0, 12)]);
    text.hide("p");
    add_background(&mut text);
    add(edges, "asks-hidden-for-all", 0, text);

    // Each list has all definitions, noted or added by bodies in turn.
    let mut text = Text::asks(&[(0, 12), (1, 4), (1, 12), (0, 4), (0, 12)]);
    let count = 100;
    let terms: Vec<TermId> = (0..=count).map(|index| text.free(format!("d{index}"))).collect();
    for index in 0..count {
        text.def(format!("d{index}"), terms[index + 1]);
    }
    text.root(0, "r", terms[0]);
    let all = text.op("other", &terms);
    text.root(1, "r", all);
    add(edges, "asks-bodies-in-turns", 0, text);
}
