//! Files of the newer form at their edges: the fields that it has more, ask lines of both forms in one file, the limits with
//! facts that are not admitted, a result slice for the lists of other groups, and runs in which each group is on or off.

use crate::case::Case;
use crate::edges::{self, add, add_line, Edge, FULL_ASKS, FULL_NAMES, FULL_RECORDS, FULL_TERMS, FULL_TRIGGERS};
use crate::limits;
use crate::text::{Position, Text};
use crate::LONG_ENOUGH;

/// The start of a file with so many ask lines of the newer form, of three queries in turn and of other groups each.
fn asking(count: usize) -> Text {
    let position = |index: u32| Position::Ask2(index % 3, (7 * index + 4) % 16, 4_369 * (index % 16));
    Text::positions(&(0..count as u32).map(position).collect::<Vec<_>>())
}

/// Facts of each sort in each of these groups, definitions that lead on, declarations, and roots of three queries.
fn add_background(text: &mut Text, groups: &[u32]) {
    let [p, q, r, s] = ["p", "q", "r", "s"].map(|name| text.free(name));
    let chain = text.all(q, &[vec![p]]);
    let typed = text.all(r, &[vec![q]]);
    let both = text.all(s, &[vec![p, r], vec![s]]);
    let loose = text.op("other", &[s]);
    let refined = text.free("Tm_refine_1");
    let ambient_root = text.call("HasType", &[r, refined]);
    for &group in groups {
        text.assume_in(group, format!("on_p_{group}"), 0, chain);
        text.assume_in(group, format!("typed_on_q_{group}"), 1, typed);
        text.assume_in(group, format!("on_both_{group}"), 0, both);
        text.assume_in(group, format!("loose_{group}"), 0, loose);
        text.assume_in(group, format!("refined_{group}"), 1, ambient_root);
    }
    text.def("g", p);
    text.def("p", r);
    text.def("r", s);
    text.fun("s");
    text.fun("q");
    let g = text.call("g", &[]);
    text.root(0, "goal", g);
    text.root(1, "goal", q);
    text.root(1, "goal", p);
}

/// The fields of ask lines and of assume lines.
pub fn lines(edges: &mut Vec<Edge>) {
    for (before, text) in [("first", Text::default()), ("second", asking(1)), ("sixteenth", asking(15))] {
        for (line, number) in [
            ("ask2,0,0,0", 0),
            ("ask2,255,15,65535", 0),
            ("ask2", 1),
            ("ask2,0", 1),
            ("ask2,0,0", 1),
            ("ask2,0,0,", 3),
            ("ask2,0,0,0,", 1),
            ("ask2,0,0,0,0", 1),
            ("ask2,,0,0", 3),
            ("ask2,0,,0", 3),
            ("ask2,256,0,0", 3),
            ("ask2,0,16,0", 3),
            ("ask2,0,0,65536", 3),
            ("ask2,0,0,99999", 3),
            ("ask2,0,0,00", 3),
            ("ask2,0,0,01", 3),
            ("ask2,0,0,+1", 3),
            ("ask2,0,0,-1", 3),
            ("ask2,0,0,p", 3),
            ("ask2,0,0,0\r", 3),
            ("ask3,0,0,0", 1),
            ("Ask2,0,0,0", 1),
            ("ask22,0,0,0", 1),
            ("ask 2,0,0,0", 1),
            ("ask02,0,0,0", 1),
            ("ask2 ,0,0,0", 1),
        ] {
            let name = line.replace(',', "-").replace(' ', "blank").replace('\r', "return").replace('+', "plus");
            add_line(edges, format!("groups-{before}-{name}"), number, &text, line);
        }
    }
    let mut text = Text::ask2(0, 0, 1);
    let p = text.free("p");
    text.op("eq", &[p, p]);
    for (line, number) in [
        ("assume,a,0,0,1", 0),
        ("assume,a,1,15,1", 0),
        ("assume,a,0,16,1", 3),
        ("assume,a,0,65535,1", 3),
        ("assume,a,0,65536,1", 3),
        ("assume,a,0,,1", 3),
        ("assume,a,0,00,1", 3),
        ("assume,a,0,01,1", 3),
        ("assume,a,0,015,1", 3),
        ("assume,a,0,p,1", 3),
        ("assume,a,0,-1,1", 3),
        ("assume,a,0,15,2", 4),
        ("assume,a,0,15,", 3),
        ("assume,a,0,15,65536", 3),
        ("assume,a,0,16,2", 3),
        ("assume,a,2,0,1", 3),
        ("assume,a,2,0,2", 3),
        ("assume,,0,16,2", 2),
        ("assume,a b,2,16,2", 2),
        ("assume,a,0,1", 1),
        ("assume,a,0", 1),
        ("assume", 1),
        ("assume,a,0,0,1,0", 1),
        ("assume,a,0,0,1,", 1),
        ("assume,,2,16,9,", 1),
    ] {
        let name = line.replace(',', "-").replace(' ', "blank");
        add_line(edges, format!("groups-{name}"), number, &text, line);
    }
    // What the other lines have is the same in both forms.
    for (line, number) in [
        ("fun,f", 0),
        ("fun,f,0", 1),
        ("def,f,1", 0),
        ("def,f,0,1", 1),
        ("root,0,r,1", 0),
        ("root,0,r,0,1", 1),
        ("retain,0,1", 0),
        ("all,0,1,1,1", 0),
        ("all,0,0,1,1,1", 1),
    ] {
        add_line(edges, format!("groups-then-{}", line.replace(',', "-")), number, &text, line);
    }
    let chain = Text::positions(&[Position::Ask2(0, 0, 1), Position::Also(1)]);
    for (line, number) in [
        ("also,0", 0),
        ("also,0,1", 1),
        ("also,0,0,1", 1),
        ("also2,0,1", 1),
        ("hide,p", 0),
        ("hide,p,1", 1),
        ("hide2,p", 1),
        ("assume2,a,0,0,1", 1),
    ] {
        add_line(edges, format!("groups-head-{}", line.replace(',', "-")), number, &chain, line);
    }
    // No group in the older form.
    let mut older = Text::ask(0, 0);
    older.leaf();
    for (line, number) in [("assume,a,0,0", 0), ("assume,a,0,0,0", 1), ("assume,,2,16,9", 1), ("assume,a,0,16", 4)] {
        add_line(edges, format!("groups-older-{}", line.replace(',', "-")), number, &older, line);
    }
}

/// Ask lines of the other form, in each place where one might stand.
pub fn forms(edges: &mut Vec<Edge>) {
    let bad = ["ask,0", "ask,256,16", "ask,0,0,0", "ask"];
    let bad2 = ["ask2,0,0", "ask2,256,16,65536", "ask2,0,0,0,0", "ask2"];
    for (form, same, other, more) in [("older", "ask,0,0", "ask2,0,0,1", bad2), ("newer", "ask2,0,0,1", "ask,0,0", bad)]
    {
        let mut first = Text::default();
        first.line(same);
        let mut several = first.clone();
        several.line("also,1");
        several.line(same);
        let mut after_also = first.clone();
        after_also.line("also,1");
        let mut hiding = first.clone();
        hiding.hide("p");
        let mut term = first.clone();
        term.leaf();
        let mut record = first.clone();
        record.line("retain");
        for (place, text, may_stand) in [
            ("line-2", &first, true),
            ("after-also", &after_also, true),
            ("later", &several, true),
            ("after-hide", &hiding, false),
            ("after-a-term", &term, false),
            ("after-a-record", &record, false),
        ] {
            add_line(edges, format!("forms-{form}-{place}-same"), u32::from(!may_stand), text, same);
            add_line(edges, format!("forms-{form}-{place}-other"), 1, text, other);
            for (index, line) in more.iter().enumerate() {
                add_line(edges, format!("forms-{form}-{place}-other-{index}"), 1, text, line);
            }
        }
        // The seventeenth: of the other form it is 1, of the same 13.
        for (chain, line) in [("asks", same), ("chain", "also,0")] {
            let mut full = first.clone();
            (1..limits::ASKS).for_each(|_| full.line(line));
            add(edges, format!("forms-{form}-{chain}-16"), 0, full.clone());
            add_line(edges, format!("forms-{form}-{chain}-17th-same"), FULL_ASKS, &full, same);
            add_line(edges, format!("forms-{form}-{chain}-17th-also"), FULL_ASKS, &full, "also,0");
            add_line(edges, format!("forms-{form}-{chain}-17th-other"), 1, &full, other);
            add_line(edges, format!("forms-{form}-{chain}-17th-other-no-field"), 1, &full, more[3]);
            let kind = &same[..same.find(',').unwrap_or_default()];
            add_line(edges, format!("forms-{form}-{chain}-17th-no-field"), FULL_ASKS, &full, kind);
            let mut cut = full.clone();
            cut.raw(other.as_bytes());
            add(edges, format!("forms-{form}-{chain}-17th-other-no-0a"), 1, cut);
        }
    }
}

/// The limits where no fact is admitted, and a result slice for the lists of several groups.
pub fn limits_and_rooms(edges: &mut Vec<Edge>) {
    let off = Text::ask2(0, 0, 0);
    let mut records = off.clone();
    let leaf = records.leaf();
    for index in 0..limits::RECORDS - 1 {
        records.assume_in(index as u32 % 16, format!("a{index}"), 0, leaf);
    }
    add_line(edges, "groups-off-records-1024", 0, &records, "assume,last,0,15,0");
    records.assume_in(15, "last", 0, leaf);
    add_line(edges, "groups-off-records-1025", FULL_RECORDS, &records, "assume,next,0,15,0");

    let mut entries = off.clone();
    let p = entries.free("p");
    let all = entries.all(p, &vec![vec![p]; limits::ENTRIES - 1]);
    entries.assume_in(1, "a", 0, all);
    entries.root(0, "r", p);
    add_line(edges, "groups-off-entries-2048", 0, &entries, "assume,assumption_b,0,2,0");
    entries.assume_in(2, "assumption_b", 0, p);
    add_line(edges, "groups-off-entries-2049", FULL_TRIGGERS, &entries, "assume,assumption_c,0,3,0");

    let mut uses = off.clone();
    let wide = edges::add_wide_call(&mut uses, 64);
    for index in 0..limits::USES / 64 {
        uses.assume_in(index as u32 % 16, format!("a{index}"), 0, wide);
    }
    add_line(edges, "groups-off-uses-6144", 0, &uses, "fun,wide");
    add_line(edges, "groups-off-uses-6145", FULL_TRIGGERS, &uses, "assume,b,0,9,0");

    let mut names = off.clone();
    names.leaf();
    edges::spell_names(&mut names, limits::NAMES - 1);
    add_line(edges, "groups-off-names-2048", 0, &names, "assume,z,0,3,0");
    names.assume_in(3, "z", 0, 0);
    add_line(edges, "groups-off-names-2049", FULL_NAMES, &names, "assume,y,0,3,0");
    // The group is no name.
    add_line(edges, "groups-off-names-2048-a-group", 0, &names, "assume,n0,0,15,0");

    // Four names stand in the terms, and the fact's name and its trimmed token are two more.
    let mut token = off.clone();
    let marker = token.free("__uu__PartialApp");
    let named = token.free("f@tok");
    let apply = token.call("ApplyTT", &[marker, named]);
    let valid = token.call("Valid", &[apply]);
    edges::spell_names(&mut token, limits::NAMES - 6);
    add_line(edges, "groups-off-token-2048", 0, &token, format!("assume,a,0,9,{valid}"));
    token.assume_in(9, "a", 0, valid);
    add_line(edges, "groups-off-token-spelled", 0, &token, "fun,f");
    add_line(edges, "groups-off-token-2049", FULL_NAMES, &token, "fun,g");

    let mut terms = asking(limits::ASKS);
    edges::add_leaves(&mut terms, limits::TERMS);
    add_line(edges, "groups-terms-4096", 0, &terms, "assume,a,0,1,4095");
    add_line(edges, "groups-terms-4097", FULL_TERMS, &terms, "leaf");

    for (count, total, number) in [(16, limits::BYTES, 0), (17, limits::BYTES + 1, 9)] {
        let mut text = asking(count);
        edges::add_bytes(&mut text, total);
        add(edges, format!("groups-{count}-bytes-{total}"), number, text);
    }

    let mut add = |name: String, number: u32, case: Case| {
        edges.push(Edge { case: Case { name, ..case }, number });
    };
    // Two facts, one, none, three.
    let positions = [3, 4, 0, 7].map(|groups| Position::Ask2(0, 0, groups));
    let mut text = Text::positions(&positions);
    let leaf = text.leaf();
    (0..3).for_each(|group| text.assume_in(group, format!("a{group}"), 0, leaf));
    let six = Case::new("", text.finish());
    for (room, number) in [(0, 8), (3, 8), (5, 8), (6, 0), (7, 0)] {
        add(format!("groups-room-{room}-of-6"), number, six.clone().with_room(room));
    }
    // Sixteen lists of a sixteenth of the records each.
    let positions: Vec<Position> = (0..16).map(|group| Position::Ask2(0, 0, 1 << group)).collect();
    let mut text = Text::positions(&positions);
    let leaf = text.leaf();
    for index in 0..limits::RECORDS {
        text.assume_in(index as u32 % 16, format!("a{index}"), 0, leaf);
    }
    let full = Case::new("", text.finish());
    for (room, number) in [(limits::RECORDS - 1, 8), (limits::RECORDS, 0)] {
        add(format!("groups-room-{room}-of-{}", limits::RECORDS), number, full.clone().with_room(room));
    }
    let many = Case::new("", asking(limits::ASKS + 1).finish());
    add("groups-13-before-8".into(), FULL_ASKS, many.clone().with_room(0));
    let mut works = LONG_ENOUGH;
    works[1] -= 1;
    add("groups-7-before-13".into(), 7, many.with_works(works));
}

/// Runs in which groups are on and off.
pub fn runs(edges: &mut Vec<Edge>) {
    let every: Vec<u32> = (0..16).collect();
    // Each group alone, each group alone off, and each lower and each upper part, over facts of every group.
    for (name, groups) in [
        ("one-on", every.iter().map(|&group| 1 << group).collect::<Vec<u32>>()),
        ("one-off", every.iter().map(|&group| limits::GROUPS - (1 << group)).collect()),
        ("lower", every.iter().map(|&group| (2 << group) - 1).collect()),
        ("upper", every.iter().map(|&group| limits::GROUPS >> group << group).collect()),
        ("in-turns", every.iter().map(|&group| if group % 2 == 0 { 0 } else { limits::GROUPS }).collect()),
    ] {
        for options in [0, 3, 12] {
            let positions: Vec<Position> = groups.iter().map(|&groups| Position::Ask2(0, options, groups)).collect();
            let mut text = Text::positions(&positions);
            add_background(&mut text, &every);
            add(edges, format!("groups-{name}-{options}"), 0, text);
        }
    }

    // Each options number, with facts of three groups of which two are on.
    for options in 0..=limits::OPTIONS {
        for query in 0..3 {
            let positions = [6, 5, 3, 0].map(|groups| Position::Ask2(query, options, groups));
            let mut text = Text::positions(&positions);
            add_background(&mut text, &[0, 1, 2]);
            add(edges, format!("groups-options-{options}-of-{query}"), 0, text);
        }
    }

    // Facts of which each brings the next, of the sixteen groups in turn: a run ends at the first that is off.
    for (name, groups) in [
        ("all", limits::GROUPS),
        ("none", 0),
        ("not-15", limits::GROUPS - (1 << 15)),
        ("not-7", limits::GROUPS - (1 << 7)),
        ("even", 0x5555),
    ] {
        let mut text = Text::positions(&[Position::Ask2(0, 0, groups), Position::Also(1), Position::Also(2)]);
        let mut term = text.free("p0");
        for index in 0..64 {
            if index % 24 == 0 {
                text.root(index / 24, "r", term);
            }
            let next = text.free(format!("p{}", index + 1));
            let fact = text.all(next, &[vec![term]]);
            text.assume_in(index % 16, format!("a{index}"), 0, fact);
            term = next;
        }
        add(edges, format!("groups-line-{name}"), 0, text);
    }

    // As many rounds as there can be, and none where the facts are off.
    let mut text = Text::positions(&[0, 1 << 15, 1, 1 << 15].map(|groups| Position::Ask2(0, 0, groups)));
    let mut term = text.free("p0");
    text.root(0, "r", term);
    for index in 1..limits::RECORDS {
        let next = text.free(format!("p{index}"));
        let fact = text.all(next, &[vec![term]]);
        text.assume_in(15, format!("a{index}"), 0, fact);
        term = next;
    }
    add(edges, "groups-1024-rounds", 0, text);

    // Chains of other groups over one background, and hidden names.
    for (name, hidden) in [("plain", &[][..]), ("hidden", &["p", "Tm_refine_1"])] {
        for options in [0, 2, 12] {
            let mut text = Text::positions(&[
                Position::Ask2(2, options, 1),
                Position::Also(0),
                Position::Also(1),
                Position::Ask2(0, options, 2),
                Position::Also(1),
                Position::Ask2(1, options, 3),
                Position::Also(1),
            ]);
            hidden.iter().for_each(|name| text.hide(name));
            add_background(&mut text, &[0, 1, 2]);
            add(edges, format!("groups-chains-{name}-{options}"), 0, text);
        }
    }
}
