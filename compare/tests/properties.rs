//! What documents 01 and 02 say of every file, tried on random ones: each test changes a file and says how the answer moves.

use std::collections::{BTreeMap, BTreeSet};
use std::fs;
use std::path::Path;

use compare::random::Random;
use compare::text::Position;
use compare::{
    filter, filter_file, forms, generate, limits, order, reasons, sequence, summaries, sweep, why, Needs, Outcome,
    Reasons, Refusal, Row, Swept, Trigger, LATE, LONG_ENOUGH, NEITHER,
};

type Line = Vec<u8>;

/// The lines of a file, each with its final 0A where it has one.
fn lines(file: &[u8]) -> Vec<Line> {
    file.split_inclusive(|&byte| byte == b'\n').map(<[u8]>::to_vec).collect()
}

/// The fields of a line.
fn fields(line: &[u8]) -> Vec<String> {
    let text = String::from_utf8_lossy(line.strip_suffix(b"\n").unwrap_or(line)).into_owned();
    text.split(',').map(str::to_owned).collect()
}

/// The line of some fields.
fn line(fields: &[String]) -> Line {
    format!("{}\n", fields.join(",")).into_bytes()
}

/// The first field of a line.
fn kind(line: &[u8]) -> String {
    fields(line)[0].clone()
}

/// Whether a line is a term line.
fn is_term(line: &[u8]) -> bool {
    ["free", "leaf", "call", "op", "all", "some", "let", "label"].contains(&kind(line).as_str())
}

/// Whether a line is an ask or also line.
fn is_position(line: &[u8]) -> bool {
    ["ask", "ask2", "also"].contains(&kind(line).as_str())
}

/// Whether a line is an ask, also or hide line.
fn is_head(line: &[u8]) -> bool {
    is_position(line) || kind(line) == "hide"
}

/// Whether a file is of the newer form.
fn is_newer(file: &[u8]) -> bool {
    kind(&lines(file)[0]) == "ask2"
}

/// The names of the hide lines.
fn hidden(file: &[u8]) -> Vec<String> {
    lines(file).iter().map(|line| fields(line)).filter(|line| line[0] == "hide").map(|line| line[1].clone()).collect()
}

/// A file with other hide lines.
fn with_hidden(file: &[u8], names: &[String]) -> Vec<u8> {
    let mut lines = lines(file);
    lines.retain(|line| kind(line) != "hide");
    let positions = lines.iter().take_while(|line| is_position(line)).count();
    lines.splice(positions..positions, names.iter().map(|name| line(&["hide".to_owned(), name.clone()])));
    lines.concat()
}

/// A file with each line exchanged for what is given for it, by line number from 1.
fn each_line(file: &[u8], mut change: impl FnMut(usize, &Line) -> Line) -> Vec<u8> {
    lines(file).iter().enumerate().flat_map(|(index, line)| change(index + 1, line)).collect()
}

/// The ask and also lines of a file.
fn positions(file: &[u8]) -> Vec<Position> {
    let number = |field: &String| field.parse().unwrap();
    let position = |fields: Vec<String>| match fields[0].as_str() {
        "ask" => Position::Ask(number(&fields[1]), number(&fields[2])),
        "ask2" => Position::Ask2(number(&fields[1]), number(&fields[2]), number(&fields[3])),
        _ => Position::Also(number(&fields[1])),
    };
    lines(file).iter().take_while(|line| is_position(line)).map(|line| position(fields(line))).collect()
}

/// A file with other ask and also lines.
fn with_positions(file: &[u8], positions: &[Position]) -> Vec<u8> {
    let rest = lines(file).into_iter().skip_while(|line| is_position(line));
    let positions = positions.iter().map(|position| format!("{position}\n").into_bytes());
    positions.chain(rest).collect::<Vec<Line>>().concat()
}

/// A chain: an ask line and the also lines after it.
type Chain = Vec<Position>;

/// The chains of a file.
fn chains(file: &[u8]) -> Vec<Chain> {
    let mut chains: Vec<Chain> = Vec::new();
    for position in positions(file) {
        match (position, chains.last_mut()) {
            (Position::Also(_), Some(chain)) => chain.push(position),
            _ => chains.push(vec![position]),
        }
    }
    chains
}

/// The options of the first line.
fn first_options(file: &[u8]) -> u32 {
    match positions(file)[0] {
        Position::Ask(_, options) | Position::Ask2(_, options, _) => options,
        Position::Also(_) => unreachable!("the first line is an ask line"),
    }
}

/// The groups that an ask line admits.
fn groups(position: Position) -> u32 {
    match position {
        Position::Ask2(_, _, groups) => groups,
        _ => limits::GROUPS,
    }
}

/// The group of a line that is a fact.
fn group(line: &[u8]) -> Option<u32> {
    let fields = fields(line);
    match (fields[0].as_str(), fields.len()) {
        ("assume", 5) => fields[3].parse().ok(),
        ("assume", _) => Some(0),
        _ => None,
    }
}

/// Whether these groups admit a line: one that is no fact, or a fact of one of them.
fn is_admitted(groups: u32, line: &[u8]) -> bool {
    group(line).is_none_or(|group| groups & (1 << group) != 0)
}

/// A file with one ask line, its first one with other options.
fn with_options(file: &[u8], options: u32) -> Vec<u8> {
    with_positions(file, &[positions(file)[0].with_options(options)])
}

/// A list as it is kept, with its counts.
#[derive(Clone, Debug, PartialEq)]
struct List {
    lines: Vec<u32>,
    names: Vec<Vec<u8>>,
    visits: u32,
    rounds: u32,
}

/// The lists that an accepted file gives.
fn lists(file: &[u8]) -> Option<Vec<List>> {
    let Outcome::Kept(lists) = filter_file(file) else { return None };
    let list = |list: compare::List| List {
        lines: list.lines,
        names: list.names.into_iter().map(<[u8]>::to_vec).collect(),
        visits: list.visits,
        rounds: list.rounds,
    };
    Some(lists.into_iter().map(list).collect())
}

/// The list that an accepted file with one ask line gives.
fn list(file: &[u8]) -> Option<List> {
    let mut lists = lists(file)?;
    assert_eq!(lists.len(), 1);
    lists.pop()
}

/// The lists with line numbers higher or lower by so many.
fn moved(lists: Vec<List>, by: isize) -> Vec<List> {
    let line = |line: &u32| (*line as isize + by) as u32;
    lists.into_iter().map(|list| List { lines: list.lines.iter().map(line).collect(), ..list }).collect()
}

/// Accepted random files of a seed.
fn accepted(seed: u64, count: usize) -> Vec<Vec<u8>> {
    let mut random = Random::new(seed);
    (0..count).map(|_| generate::formed(&mut random)).filter(|file| lists(file).is_some()).collect()
}

/// The same with their first line alone of the ask and also lines.
fn accepted_with_one_ask(seed: u64, count: usize) -> Vec<Vec<u8>> {
    accepted(seed, count).iter().map(|file| with_positions(file, &positions(file)[..1])).collect()
}

/// The lines of the ambient facts.
fn ambient_lines(file: &[u8]) -> Vec<u32> {
    let summaries = summaries(file).expect("an accepted file");
    summaries.iter().filter(|fact| matches!(fact.trigger, Trigger::Ambient { .. })).map(|fact| fact.line).collect()
}

/// The kept lines that are assume lines, and of these those that are not ambient.
fn facts_and_reached(file: &[u8], list: &List) -> (Vec<u32>, Vec<u32>) {
    let (text, ambients) = (lines(file), ambient_lines(file));
    let is_fact = |line: &&u32| kind(&text[**line as usize - 1]) == "assume";
    let facts: Vec<u32> = list.lines.iter().filter(is_fact).copied().collect();
    let reached = facts.iter().filter(|line| !ambients.contains(line)).copied().collect();
    (facts, reached)
}

/// Document 01: lines from the first.
#[test]
fn a_line_is_refused_for_itself_and_the_lines_before() {
    let mut refused = 0;
    for case in generate::cases(21, 1_500) {
        let Outcome::Refused { number, place } = filter_file(&case.file) else { continue };
        if number == 9 {
            continue;
        }
        refused += 1;
        let lines = lines(&case.file);
        let place_of_line = place as usize;
        // A file that ends before the place has no line there: it is empty.
        let until = lines[..place_of_line.min(lines.len())].concat();
        assert_eq!(filter_file(&until), Outcome::Refused { number, place }, "{}", case.name);
        if place > 1 {
            assert!(lists(&lines[..place_of_line - 1].concat()).is_some(), "{}", case.name);
        }
        if until.ends_with(b"\n") && until.len() + 10 < limits::BYTES {
            let more = [&until[..], b"\x00,nothing"].concat();
            assert_eq!(filter_file(&more), Outcome::Refused { number, place }, "{}", case.name);
        }
    }
    assert!(refused > 400, "{refused}");
}

/// Documents 01 and 02: 8 exactly where the result slice is shorter than all lists end to end, whose summed count is its
/// place.
#[test]
fn the_result_slice_holds_the_lists() {
    for file in accepted(22, 300) {
        let kept: usize = lists(&file).unwrap().iter().map(|list| list.lines.len()).sum();
        let first = lists(&file).unwrap()[0].lines.len();
        for room in [0, first, kept.saturating_sub(1), kept, kept + 1] {
            match filter(&file, LONG_ENOUGH, room) {
                outcome @ Outcome::Kept(_) => assert!(outcome.lines().len() == kept && room >= kept),
                refused => {
                    assert_eq!(refused, Outcome::Refused { number: 8, place: kept as u32 });
                    assert!(room < kept);
                }
            }
        }
    }
}

/// Document 01: root lines of other queries do not matter.
#[test]
fn root_lines_of_other_queries_do_not_matter() {
    let (mut random, mut changed) = (Random::new(23), 0);
    for file in accepted(23, 400) {
        let asked: Vec<u32> = positions(&file).iter().map(|position| position.query()).collect();
        let others: Vec<u32> = (0..=255).filter(|query| !asked.contains(query)).collect();
        let mut terms = 0;
        let other = each_line(&file, |_, old| {
            terms += usize::from(is_term(old));
            let mut fields = fields(old);
            if fields[0] != "root" || asked.contains(&fields[1].parse().unwrap()) {
                return old.clone();
            }
            changed += 1;
            fields[1] = random.pick(&others).to_string();
            fields[3] = random.below(terms).to_string();
            line(&fields)
        });
        if let Some(other) = lists(&other) {
            assert_eq!(Some(other), lists(&file));
        }
    }
    assert!(changed > 300, "{changed}");
}

/// Document 01: a retain line has no effect.
#[test]
fn retain_lines_have_no_effect() {
    for file in accepted(24, 300) {
        let without = each_line(&file, |_, old| if kind(old) == "retain" { b"retain\n".to_vec() } else { old.clone() });
        assert_eq!(lists(&without), lists(&file));
    }
}

/// Document 01, misreadings: the flag of an ambient fact is not asked.
#[test]
fn the_flag_of_an_ambient_fact_does_not_matter() {
    for file in accepted(25, 300) {
        let ambients = ambient_lines(&file);
        let flipped = each_line(&file, |number, old| {
            let mut fields = fields(old);
            if ambients.contains(&(number as u32)) {
                fields[2] = if fields[2] == "0" { "1" } else { "0" }.to_owned();
            }
            line(&fields)
        });
        assert_eq!(lists(&flipped), lists(&file));
    }
}

/// Document 01: reached facts by name, then the admitted ambients, last filed first; option 1 leaves the ambients out, option 2
/// lets more facts be reached, option 4 adds definitions and declarations at the end.
#[test]
fn options_and_the_order_of_a_list() {
    let (mut more, mut declared) = (0, 0);
    for file in accepted_with_one_ask(26, 300) {
        let text = lines(&file);
        let name = |line: &u32| fields(&text[*line as usize - 1])[1].clone().into_bytes();
        let [without, no_ambients, pretyping, decls] =
            [0, 1, 2, 4].map(|options| list(&with_options(&file, options)).expect("options do not refuse a file"));

        let (facts, reached) = facts_and_reached(&file, &without);
        assert_eq!(facts, without.lines);
        assert!(reached.windows(2).all(|pair| name(&pair[0]) < name(&pair[1])));
        let on = groups(positions(&file)[0]);
        let is_on = |line: &u32| is_admitted(on, &text[*line as usize - 1]);
        let ambients: Vec<u32> = ambient_lines(&file).into_iter().rev().filter(is_on).collect();
        assert_eq!(facts, [&reached[..], &ambients].concat());

        let reached_set = |list: &List| BTreeSet::from_iter(facts_and_reached(&file, list).1);
        assert!(reached_set(&no_ambients).is_subset(&reached_set(&without)));
        assert_eq!(facts_and_reached(&file, &no_ambients).1, no_ambients.lines);
        assert!(reached_set(&without).is_subset(&reached_set(&pretyping)));
        more += usize::from(reached_set(&without) != reached_set(&pretyping));

        let (facts_kept, others) = decls.lines.split_at(without.lines.len());
        assert_eq!((facts_kept, decls.visits, decls.rounds), (&without.lines[..], without.visits, without.rounds));
        let kinds: Vec<String> = others.iter().map(|&line| kind(&text[line as usize - 1])).collect();
        assert!(kinds.iter().all(|kind| kind == "def" || kind == "fun") && kinds.is_sorted(), "{kinds:?}");
        assert_eq!(BTreeSet::from_iter(&decls.lines).len(), decls.lines.len());
        declared += usize::from(!others.is_empty());
    }
    assert!(more > 20 && declared > 50, "{more} {declared}");
}

/// The nine names that never count as free.
const NINE: [&str; 9] =
    ["SFuel", "ZFuel", "HasType", "HasTypeZ", "HasTypeFuel", "Valid", "ApplyTT", "ApplyTF", "Prims.lex_t"];

/// Change 6: a hide line may repeat a name, and their sequence is no matter; one of the nine names or one that stands
/// nowhere else hides nothing.
#[test]
fn hide_lines_that_hide_nothing_more() {
    let (mut random, mut tried) = (Random::new(28), 0);
    for file in accepted(28, 400) {
        let before = lists(&file).unwrap();
        let names = hidden(&file);
        let mut turned = names.clone();
        turned.reverse();
        assert_eq!(lists(&with_hidden(&file, &turned)).as_ref(), Some(&before));

        let mut more = names.clone();
        let many = random.within(1..=5);
        for _ in 0..many {
            let again = names.is_empty() || random.chance(60);
            let name = if again { random.pick(&NINE).to_owned() } else { random.pick(&names) };
            more.insert(random.below(more.len() + 1), name);
        }
        more.insert(random.below(more.len() + 1), "nowhere.else".to_owned());
        if let Some(after) = lists(&with_hidden(&file, &more)) {
            assert_eq!(after, moved(before, many as isize + 1));
            tried += usize::from(!names.is_empty());
        }
    }
    assert!(tried > 80, "{tried}");
}

/// Change 6: a hide line elsewhere is 1, whatever its fields are.
#[test]
fn a_hide_line_elsewhere_is_1() {
    let mut random = Random::new(29);
    for file in accepted(29, 300) {
        let mut lines = lines(&file);
        let head = lines.iter().take_while(|line| is_head(line)).count();
        let at = if random.chance(20) { 0 } else { random.within(head..=lines.len()) };
        let line = random.pick(&["hide,p\n", "hide\n", "hide,\n", "hide,p,q\n", "hide,p q\n"]);
        lines.insert(at, line.into());
        match filter_file(&lines.concat()) {
            Outcome::Refused { number, place } if at != head => assert_eq!((number, place as usize), (1, at + 1)),
            outcome => assert_eq!(at, head, "{outcome}"),
        }
    }
}

/// Change 6: hidden names join the nine. So hiding a name without a meaning of its own is the same as to write one of the
/// nine for it in all terms.
#[test]
fn a_hidden_name_is_as_one_of_the_nine() {
    let has_meaning = |name: &str| {
        name.ends_with("@tok")
            || ["Tm_refine_", "Prims.", "is-", "Box", "__uu__"].iter().any(|start| name.starts_with(start))
            || ["IsTotFun", "Term_constr_id"].contains(&name)
            || NINE.contains(&name)
    };
    let (mut renamed, mut other) = (0, 0);
    for file in accepted(30, 900) {
        let names = hidden(&file);
        let (kept, plain): (Vec<String>, Vec<String>) = names.into_iter().partition(|name| has_meaning(name));
        let without = with_hidden(&file, &kept);
        let file_renamed = each_line(&without, |_, old| {
            let mut fields = fields(old);
            if ["free", "call"].contains(&fields[0].as_str()) && plain.contains(&fields[1]) {
                renamed += 1;
                fields[1] = "ZFuel".to_owned();
            }
            line(&fields)
        });
        let before = lists(&file).unwrap();
        if let Some(after) = lists(&file_renamed) {
            assert_eq!(moved(after, plain.len() as isize), before);
        }
        other += usize::from(lists(&without).is_some_and(|lists| moved(lists, plain.len() as isize) != before));
    }
    assert!(renamed > 300 && other > 40, "{renamed} {other}");
}

/// Change 6: no summary has a hidden name free, and none but rule 4's has one in a disjunct.
#[test]
fn hidden_names_stand_in_no_summary() {
    let (mut shown, mut tokens) = (0, 0);
    for file in accepted(31, 400) {
        let names = hidden(&file);
        let is_hidden = |name: &&[u8]| names.iter().any(|hidden| hidden.as_bytes() == *name);
        for fact in summaries(&file).unwrap() {
            assert!(!fact.free.iter().any(is_hidden), "{fact}");
            shown += 1;
            let Trigger::Names(disjuncts) = &fact.trigger else { continue };
            if disjuncts.iter().flatten().any(is_hidden) {
                // The token alone, or the token and what it is trimmed to.
                assert!(disjuncts.len() <= 2 && disjuncts.iter().all(|names| names.len() == 1), "{fact}");
                tokens += 1;
            }
        }
    }
    assert!(shown > 500 && tokens > 5, "{shown} {tokens}");
}

/// Changes 7 and 11: the answers to the lines of a chain are what the file with only this chain gives, apart from the line
/// numbers.
#[test]
fn each_answer_is_that_of_its_chain_alone() {
    let (mut several, mut different) = (0, 0);
    for file in accepted(33, 500) {
        let (lines, lists) = (positions(&file).len(), lists(&file).unwrap());
        assert_eq!(lists.len(), lines);
        let mut rest = &lists[..];
        for chain in chains(&file) {
            let alone = self::lists(&with_positions(&file, &chain)).expect("an ask line refuses no file");
            let (own, after) = rest.split_at(chain.len());
            assert_eq!(moved(alone, (lines - chain.len()) as isize), own);
            rest = after;
        }
        several += usize::from(lists.len() > 1);
        different += usize::from(lists.windows(2).any(|pair| pair[0] != pair[1]));
    }
    assert!(several > 120 && different > 80, "{several} {different}");
}

/// Changes 7 and 11: the answers stand in the sequence of the chains, which may repeat, and what comes after a line of a
/// chain does not matter to it.
#[test]
fn the_answers_follow_the_sequence_of_the_ask_and_also_lines() {
    let mut random = Random::new(34);
    for file in accepted(34, 200) {
        let (chains, lists) = (chains(&file), lists(&file).unwrap());
        let starts: Vec<usize> = (0..chains.len()).map(|index| chains[..index].concat().len()).collect();
        let (mut picked, mut expected) = (Vec::new(), Vec::new());
        for _ in 0..random.within(1..=limits::ASKS) {
            let index = random.below(chains.len());
            let length = random.within(1..=chains[index].len());
            if picked.len() + length <= limits::ASKS {
                picked.extend_from_slice(&chains[index][..length]);
                expected.extend_from_slice(&lists[starts[index]..starts[index] + length]);
            }
        }
        let other = with_positions(&file, &picked);
        if !picked.is_empty() && other.len() <= limits::BYTES {
            let by = picked.len() as isize - lists.len() as isize;
            assert_eq!(self::lists(&other), Some(moved(expected, by)));
        }
    }
}

/// Change 11: the list of an also line is that of a fresh run over all roots of its chain so far, by line; the visits so far
/// sum to those of that run, and a stretch has a round at least.
#[test]
fn an_also_line_is_answered_as_a_fresh_run_over_all_roots() {
    let (mut stretches, mut other_rounds) = (0, 0);
    for file in accepted(37, 1_200) {
        let (lines, lists) = (positions(&file).len(), lists(&file).unwrap());
        let mut counted = lists.iter();
        for chain in chains(&file) {
            let first = chain[0].query();
            let mut visits = 0;
            for (index, list) in (0..chain.len()).zip(&mut counted) {
                // One ask line, whose query has the roots of all queries so far.
                let queries: Vec<u32> = chain[..=index].iter().map(|position| position.query()).collect();
                let joined = each_line(&with_positions(&file, &chain[..1]), |_, old| {
                    let mut fields = fields(old);
                    if fields[0] == "root" && queries.contains(&fields[1].parse().unwrap()) {
                        fields[1] = first.to_string();
                    }
                    line(&fields)
                });
                let fresh = self::list(&joined).expect("a query's number refuses no file");
                let fresh = moved(vec![fresh], lines as isize - 1).remove(0);
                visits += list.visits;
                assert_eq!((&list.lines, &list.names, visits), (&fresh.lines, &fresh.names, fresh.visits));
                assert!(list.rounds >= 1);
                stretches += usize::from(index > 0 && list.visits > 0);
                other_rounds += usize::from(index > 0 && list.visits > 0 && list.rounds != fresh.rounds);
            }
        }
    }
    assert!(stretches > 60 && other_rounds > 20, "{stretches} {other_rounds}");
}

/// Change 11: an also line of a query that its chain has, or that has no root, adds nothing: no visit, one round, the list
/// again.
#[test]
fn an_also_line_that_adds_no_roots_gives_the_list_again() {
    let (mut random, mut again) = (Random::new(38), 0);
    for file in accepted(38, 400) {
        let mut positions = positions(&file);
        if positions.len() == limits::ASKS {
            continue;
        }
        let at = random.within(1..=positions.len());
        let start = (0..at).rev().find(|&index| !matches!(positions[index], Position::Also(_))).unwrap();
        let roots: BTreeSet<String> = lines(&file)
            .iter()
            .map(|line| fields(line))
            .filter(|line| line[0] == "root")
            .map(|line| line[1].clone())
            .collect();
        let rootless = (0..=255).rev().find(|query: &u32| !roots.contains(&query.to_string())).unwrap();
        let query = if random.chance(50) { rootless } else { positions[random.within(start..=at - 1)].query() };
        positions.insert(at, Position::Also(query));
        let other = with_positions(&file, &positions);
        if other.len() > limits::BYTES {
            continue;
        }
        let mut expected = moved(lists(&file).unwrap(), 1);
        expected.insert(at, List { visits: 0, rounds: 1, ..expected[at - 1].clone() });
        assert_eq!(lists(&other), Some(expected));
        again += 1;
    }
    assert!(again > 200, "{again}");
}

/// Changes 7, 11 and 13: an ask or also line elsewhere is 1, and so is an ask line of the other form anywhere, whatever its
/// fields are; among them one of the form is one more, and the seventeenth is 13, whatever its fields are, unless it does not
/// end with 0A. An also line is never the first.
#[test]
fn an_ask_or_also_line_elsewhere_is_1_and_the_seventeenth_is_13() {
    let mut random = Random::new(35);
    let (mut elsewhere, mut seventeenth, mut first, mut other_form) = (0, 0, 0, 0);
    let older = [("ask,0,0", 0), ("ask", 1), ("ask,0", 1), ("ask,256,0", 3), ("ask,0,16", 3)];
    let newer = [("ask2,0,0,9", 0), ("ask2", 1), ("ask2,0,0", 1), ("ask2,0,16,0", 3), ("ask2,0,0,65536", 3)];
    let also = [("also,0", 0), ("also", 1), ("also,0,0", 1), ("also,256", 3), ("also,", 3)];
    for file in accepted(35, 1_100) {
        let newer_form = is_newer(&file);
        let mut lines = lines(&file);
        let asks = positions(&file).len();
        if asks < limits::ASKS && random.chance(40) {
            let ask = if newer_form { "ask2,1,4,3\n" } else { "ask,1,4\n" };
            let more = vec![random.pick(&[ask, "also,1\n"]).as_bytes().to_vec(); limits::ASKS - asks];
            lines.splice(1..1, more);
        }
        let asks = lines.iter().take_while(|line| is_position(line)).count();
        let at = match random.below(10) {
            0..=4 => asks,
            5 => 0,
            _ => random.within(0..=lines.len()),
        };
        let (of_form, of_other) = if newer_form { (newer, older) } else { (older, newer) };
        let is_other = random.chance(25);
        let lines_to_add = if is_other {
            of_other
        } else if random.chance(50) {
            of_form
        } else {
            also
        };
        let (line, number) = random.pick(&lines_to_add);
        lines.insert(at, format!("{line}\n").into_bytes());
        let whole = lines.concat();
        if whole.len() > limits::BYTES {
            continue;
        }
        let refused = |number: u32, place: usize| Outcome::Refused { number, place: place as u32 };
        if is_other {
            other_form += 1;
            // On line 1 it is the next ask line that is of the other form.
            let expected = match (at, number) {
                (0, 0) => refused(1, 2),
                (0, _) => refused(number, 1),
                _ => refused(1, at + 1),
            };
            assert_eq!(filter_file(&whole), expected);
        } else if at > asks || (at == 0 && line.starts_with("also")) {
            elsewhere += 1;
            first += usize::from(at == 0);
            assert_eq!(filter_file(&whole), refused(1, at + 1));
        } else if number == 0 && asks < limits::ASKS {
            assert_eq!(filter_file(&whole).lists().len(), asks + 1);
        } else if number == 0 || at == limits::ASKS {
            seventeenth += 1;
            assert_eq!(filter_file(&whole), refused(13, limits::ASKS + 1));
            let cut: Vec<u8> = lines[..=limits::ASKS].concat();
            assert_eq!(filter_file(&cut[..cut.len() - 1]), refused(1, limits::ASKS + 1));
        } else {
            assert_eq!(filter_file(&whole), refused(number, at + 1));
        }
    }
    let counts = (elsewhere, seventeenth, first, other_form);
    assert!(elsewhere > 60 && seventeenth > 60 && first > 10 && other_form > 100, "{counts:?}");
}

/// Changes 7 and 11: a refusal refuses the whole call: what a line is refused for does not depend on how many ask and also
/// lines stand above.
#[test]
fn a_refusal_does_not_depend_on_the_ask_lines() {
    let (mut random, mut refused) = (Random::new(36), 0);
    for case in generate::cases(36, 1_500) {
        let Outcome::Refused { number, place } = filter_file(&case.file) else { continue };
        let lines = lines(&case.file);
        let before = lines.iter().take_while(|line| is_position(line)).count();
        // A line after the ask and also lines, of which there are some.
        if before == 0 || place as usize <= before {
            continue;
        }
        let more = random.below(limits::ASKS + 1 - before);
        let ask = if is_newer(&case.file) { "ask2,3,6,2\n" } else { "ask,3,6\n" };
        let line = random.pick(&[ask, "also,3\n"]);
        let file = [&lines[0], line.repeat(more).as_bytes(), &lines[1..].concat()].concat();
        if file.len() <= limits::BYTES {
            refused += 1;
            assert_eq!(filter_file(&file), Outcome::Refused { number, place: place + more as u32 }, "{}", case.name);
        }
    }
    assert!(refused > 300, "{refused}");
}

/// The names in each term of an accepted file that count as free, by their lines alone.
fn free_names(file: &[u8]) -> Vec<BTreeSet<String>> {
    let hidden = hidden(file);
    let mut terms: Vec<BTreeSet<String>> = Vec::new();
    for line in lines(file).iter().filter(|line| is_term(line)) {
        let fields = fields(line);
        let numbers = |fields: &[String]| -> Vec<usize> { fields.iter().map(|field| field.parse().unwrap()).collect() };
        let parts = match fields[0].as_str() {
            "call" | "op" => numbers(&fields[2..]),
            "let" | "label" => numbers(&fields[1..]),
            "all" | "some" => {
                let (mut parts, mut rest) = (numbers(&fields[1..2]), numbers(&fields[3..]));
                while let Some(count) = rest.first().copied() {
                    parts.extend(&rest[1..=count]);
                    rest.drain(..=count);
                }
                parts
            }
            _ => Vec::new(),
        };
        let mut names: BTreeSet<String> = parts.iter().flat_map(|&part| terms[part].clone()).collect();
        let is_free = |name: &str| !NINE.contains(&name) && !hidden.iter().any(|hidden| hidden == name);
        if ["free", "call"].contains(&fields[0].as_str()) && is_free(&fields[1]) {
            names.insert(fields[1].clone());
        }
        terms.push(names);
    }
    terms
}

/// Change 8: option 8 without 4 changes nothing. With both, the kept set is the smallest that holds the list without 8 and
/// with each def the def or fun of every name free in its body; the added ones stand at the end of their group by name;
/// facts, visits and rounds are those without 8.
#[test]
fn bodies_of_kept_definitions_are_followed() {
    let (mut grown, mut deep) = (0, 0);
    for file in accepted_with_one_ask(32, 900) {
        let of = |options: u32| list(&with_options(&file, options)).expect("options do not refuse a file");
        let others = first_options(&file) & 3;
        assert_eq!(of(others + 8), of(others));
        let (stopped, followed) = (of(others + 4), of(others + 12));
        assert_eq!((stopped.visits, stopped.rounds), (followed.visits, followed.rounds));

        let text: Vec<Vec<String>> = lines(&file).iter().map(|line| fields(line)).collect();
        let of_kind = |list: &List, kind: &str| -> Vec<String> {
            let records = list.lines.iter().map(|&line| &text[line as usize - 1]);
            records.filter(|record| record[0] == kind).map(|record| record[1].clone()).collect()
        };
        let kinds: Vec<&str> = followed.lines.iter().map(|&line| text[line as usize - 1][0].as_str()).collect();
        assert!(kinds.is_sorted(), "{kinds:?}");
        assert_eq!(of_kind(&followed, "assume"), of_kind(&stopped, "assume"));
        let mut added = BTreeSet::new();
        for kind in ["def", "fun"] {
            let (before, after) = (of_kind(&stopped, kind), of_kind(&followed, kind));
            let (same, more) = after.split_at(before.len());
            assert_eq!(same, before);
            assert!(more.windows(2).all(|pair| pair[0] < pair[1]), "{more:?}");
            added.extend(more.to_vec());
        }

        let terms = free_names(&file);
        let mut kept = BTreeSet::from_iter(of_kind(&stopped, "def").into_iter().chain(of_kind(&stopped, "fun")));
        let (mut more, mut levels) = (BTreeSet::new(), 0);
        loop {
            let defs = text.iter().filter(|record| record[0] == "def" && kept.contains(&record[1]));
            let named: BTreeSet<&String> =
                defs.flat_map(|record| &terms[record[2].parse::<usize>().unwrap()]).collect();
            let declared = text.iter().filter(|record| ["def", "fun"].contains(&record[0].as_str()));
            let next: Vec<String> = declared
                .map(|record| record[1].clone())
                .filter(|name| named.contains(name) && !kept.contains(name))
                .collect();
            if next.is_empty() {
                break;
            }
            levels += 1;
            kept.extend(next.iter().cloned());
            more.extend(next);
        }
        assert_eq!(added, more);
        grown += usize::from(levels > 0);
        deep += usize::from(levels > 1);
    }
    assert!(grown > 100 && deep > 30, "{grown} {deep}");
}

/// Change 13: the older form is the newer one with all groups admitted, whatever the groups of the facts: every answer is the
/// same, line for line, and every refusal but that of the bytes. So is the list of each ask with no group switched off.
#[test]
fn the_older_form_admits_all_groups() {
    let (mut random, mut kept, mut refused) = (Random::new(39), 0, 0);
    for case in generate::cases(39, 1_500) {
        if !case.file.starts_with(b"ask,") || case.file.windows(4).any(|bytes| bytes == b"ask2") {
            continue;
        }
        let fixed = forms::all_admitted(&case.file);
        let any = forms::newer(&case.file, || limits::GROUPS, || random.below(16) as u32);
        if any.len() > limits::BYTES {
            continue;
        }
        let answer = filter_file(&case.file);
        kept += usize::from(answer.number() == 0);
        refused += usize::from(answer.number() != 0);
        // A fact that lacks its flag has no place for a group, and is 1 in both forms.
        assert_eq!(filter_file(&fixed), answer, "{}", case.name);
        assert_eq!(filter_file(&any), answer, "{}", case.name);
    }
    assert!(kept > 200 && refused > 100, "{kept} {refused}");
}

/// Change 13: to an ask a fact that it does not admit is not there: the lists, visits and rounds of its chain are those of the
/// file of the older form without these facts, line numbers apart.
#[test]
fn a_fact_that_is_not_admitted_is_not_there() {
    let (mut off, mut matters) = (0, 0);
    for file in accepted(40, 900).into_iter().filter(|file| is_newer(file)) {
        let mut rest = &lists(&file).unwrap()[..];
        let mut start = 0;
        for chain in chains(&file) {
            let (older, lines) = forms::admitted(&file, groups(chain[0]));
            let line = |line: &u32| lines[*line as usize - 1];
            let alone = lists(&older).expect("a fact less refuses no file");
            let alone: Vec<List> = alone[start..start + chain.len()]
                .iter()
                .map(|list| List { lines: list.lines.iter().map(line).collect(), ..list.clone() })
                .collect();
            let (own, after) = rest.split_at(chain.len());
            assert_eq!(own, alone);
            off += usize::from(lines.len() < file.iter().filter(|&&byte| byte == b'\n').count());
            // With all groups the answer would be another.
            let mut every = positions(&file);
            every[start] = match every[start] {
                Position::Ask2(query, options, _) => Position::Ask2(query, options, limits::GROUPS),
                position => position,
            };
            let with_all = with_positions(&file, &every);
            matters += usize::from(lists(&with_all).is_some_and(|lists| lists[start..start + chain.len()] != *own));
            (rest, start) = (after, start + chain.len());
        }
    }
    assert!(off > 200 && matters > 150, "{off} {matters}");
}

/// Change 13: a fact that is not admitted takes its name and counts for every limit: what a file is refused for does not depend
/// on the groups of its asks.
#[test]
fn groups_of_an_ask_refuse_no_file() {
    let (mut random, mut tried, mut refused) = (Random::new(41), 0, [0; 14]);
    for case in generate::cases(41, 3_000).filter(|case| case.file.starts_with(b"ask2,")) {
        let file = each_line(&case.file, |_, old| {
            let mut fields = fields(old);
            let is_good = |groups: u32| groups <= limits::GROUPS && groups.to_string() == fields[3];
            if fields[0] == "ask2" && fields.len() == 4 && fields[3].parse().is_ok_and(is_good) {
                fields[3] = random.pick(&["0", "1", "65535"]).to_owned();
                return line(&fields);
            }
            old.clone()
        });
        let (before, after) = (filter_file(&case.file), filter_file(&file));
        if case.file.len().max(file.len()) > limits::BYTES || [&before, &after].iter().any(|one| one.number() == 8) {
            continue;
        }
        tried += 1;
        refused[before.number() as usize] += 1;
        match (before, after) {
            (Outcome::Kept(before), Outcome::Kept(after)) => assert_eq!(before.len(), after.len()),
            (before, after) => assert_eq!(before, after, "{}", case.name),
        }
    }
    assert!(tried > 600 && [1, 3, 4, 5, 12, 13].iter().all(|&number| refused[number] > 3), "{tried} {refused:?}");
}

/// Change 13: a group out of its range, or no number, is 3 at its turn: after the flag, before the term.
#[test]
fn a_group_is_judged_between_flag_and_term() {
    let (mut random, mut numbers) = (Random::new(42), [0; 5]);
    for file in accepted(42, 700).into_iter().filter(|file| is_newer(file)) {
        let facts: Vec<usize> =
            lines(&file).iter().zip(1..).filter(|(line, _)| kind(line) == "assume").map(|(_, at)| at).collect();
        if facts.is_empty() {
            continue;
        }
        let at = random.pick(&facts);
        let bad = [("a b", 2), ("2", 3), ("16", 3), ("65535", 4)];
        let faulty: Vec<usize> = (0..4).filter(|_| random.chance(40)).collect();
        let Some(&first) = faulty.first() else { continue };
        let broken = each_line(&file, |number, old| {
            let mut fields = fields(old);
            if number == at {
                faulty.iter().for_each(|&index| fields[index + 1] = bad[index].0.to_owned());
            }
            line(&fields)
        });
        let number = bad[first].1;
        numbers[number as usize] += 1;
        assert_eq!(filter_file(&broken), Outcome::Refused { number, place: at as u32 });
    }
    assert!(numbers[2] > 20 && numbers[3] > 20 && numbers[4] > 5, "{numbers:?}");
}

/// The lines of a file that stay and those that may stand elsewhere, the latter sorted.
fn fixed_and_moving(file: &[u8]) -> (Vec<Line>, Vec<Line>) {
    let (mut moving, fixed): (Vec<Line>, Vec<Line>) = lines(file).into_iter().partition(|line| sequence::moves(line));
    moving.sort_unstable();
    (fixed, moving)
}

/// The names of the reached facts of a list, as listed.
fn reached_names(file: &[u8], list: &List) -> Vec<Vec<u8>> {
    let reached = facts_and_reached(file, list).1;
    let named = list.lines.iter().zip(&list.names);
    named.filter(|(line, _)| reached.contains(line)).map(|(_, name)| name.clone()).collect()
}

/// Checks what Change 14 says of an accepted file and of the same file rearranged, and gives the lists of both side by side.
fn check_sequence(file: &[u8], other: &[u8], name: &str) -> Vec<(List, List)> {
    assert_eq!(fixed_and_moving(file), fixed_and_moving(other), "{name}");
    let [own, others] = [file, other].map(|file| lists(file).unwrap_or_else(|| panic!("{name} is refused")));
    assert_eq!(own.len(), others.len(), "{name}");
    let pairs: Vec<(List, List)> = own.into_iter().zip(others).collect();
    for (own, after) in &pairs {
        assert_eq!((own.visits, own.rounds), (after.visits, after.rounds), "{name}");
        assert_eq!(BTreeSet::from_iter(&own.names), BTreeSet::from_iter(&after.names), "{name}");
        assert_eq!(reached_names(file, own), reached_names(other, after), "{name}");
    }
    pairs
}

/// Change 14: record lines in another sequence, among the term lines too, keep the same names, visits and rounds; two
/// reached facts never trade places. Other kept names do.
#[test]
fn the_sequence_of_the_record_lines_is_no_matter() {
    let mut random = Random::new(27);
    let (mut reached, mut other_lines, mut other_order) = (0, 0, 0);
    for (index, file) in accepted(27, 800).into_iter().enumerate() {
        let other = sequence::rearranged(&file, &mut random);
        for (own, after) in check_sequence(&file, &other, &index.to_string()) {
            reached += usize::from(reached_names(&file, &own).len() > 1);
            other_lines += usize::from(own.lines != after.lines);
            other_order += usize::from(own.names != after.names);
        }
    }
    let counts = (reached, other_lines, other_order);
    assert!(reached > 100 && other_lines > 300 && other_order > 100, "{counts:?}");
}

/// Change 14: so it is with the accepted cases `X-1` and `X-2`, which are one file in two sequences.
#[test]
fn pairs_of_cases_differ_in_their_sequence() {
    let folder = Path::new(env!("CARGO_MANIFEST_DIR")).join("cases");
    let mut pairs = 0;
    for entry in fs::read_dir(&folder).unwrap() {
        let path = entry.unwrap().path();
        let Some(name) = path.file_name().and_then(|name| name.to_str()?.strip_suffix("-1.in")) else { continue };
        let Ok(other) = fs::read(folder.join(format!("{name}-2.in"))) else { continue };
        let file = fs::read(&path).unwrap();
        if lists(&file).is_some() {
            assert_ne!(file, other, "{name}");
            check_sequence(&file, &other, name);
            pairs += 1;
        }
    }
    assert_eq!(pairs, 8);
}

/// Changes 2, 9 and 10: the further calls refuse the files that the first one refuses, and the working slices, each at
/// its place.
#[test]
fn the_further_calls_refuse_what_the_first_one_refuses() {
    let mut refused = BTreeSet::new();
    for case in generate::cases(51, 1_500) {
        let Outcome::Refused { number, place } = filter(&case.file, case.works, limits::ROOM) else { continue };
        let refusal = Refusal { number, place };
        assert_eq!(why(&case.file, 1, case.works, limits::REASON_ROWS), Err(refusal));
        assert_eq!(why(&case.file, 0, case.works, limits::REASON_ROWS), Err(refusal));
        assert_eq!(sweep(&case.file, case.works, limits::ROOM), Err(refusal));
        assert_eq!(order(&case.file, case.works, limits::ORDER_ROWS), Err(refusal));
        refused.insert(number);
    }
    assert_eq!(refused, BTreeSet::from([1, 2, 3, 4, 5, 6, 7, 9, 10, 11, 12, 13]));
}

/// Change 10: the second engine has the first one's refusals and lists. Its passes are at most the facts with triggers
/// plus one.
#[test]
fn the_second_engine_gives_the_lists_of_the_first() {
    let (mut rooms, mut many) = (0, 0);
    for case in generate::cases(52, 1_500) {
        let swept = sweep(&case.file, case.works, case.room);
        let lists = match filter(&case.file, case.works, case.room) {
            Outcome::Refused { number, place } => {
                assert_eq!(swept, Err(Refusal { number, place }));
                rooms += usize::from(number == 8);
                continue;
            }
            Outcome::Kept(lists) => lists,
        };
        let swept = swept.expect("an accepted file");
        let facts = summaries(&case.file).expect("an accepted file");
        let most = 1 + facts.iter().filter(|fact| matches!(fact.trigger, Trigger::Names(_))).count();
        assert_eq!(swept.len(), lists.len());
        for (Swept { lines, names, passes }, list) in swept.iter().zip(&lists) {
            assert_eq!((lines, names), (&list.lines, &list.names));
            assert!((1..=most).contains(&(*passes as usize)), "{passes} of {most}");
            many += usize::from(*passes > 2);
        }
    }
    assert!(rooms > 3 && many > 50, "{rooms} {many}");
}

/// The names of an accepted file in order of first spelling. A listed name that is not spelled up to the fact's line is a
/// trimmed token: it comes after the names of that line.
fn spelled(file: &[u8]) -> Vec<Vec<u8>> {
    let facts = summaries(file).expect("an accepted file");
    let mut names: Vec<Vec<u8>> = Vec::new();
    for (line, number) in lines(file).iter().zip(1..) {
        let fields = fields(line);
        let range = match fields[0].as_str() {
            "hide" | "free" | "call" | "assume" | "fun" | "def" => 1..2,
            "retain" => 1..fields.len(),
            "root" => 2..3,
            _ => 0..0,
        };
        let mut own: Vec<Vec<u8>> = fields[range].iter().map(|name| name.clone().into_bytes()).collect();
        if let Some(Trigger::Names(sets)) = facts.iter().find(|fact| fact.line == number).map(|fact| &fact.trigger) {
            own.extend(sets.iter().flatten().map(|name| name.to_vec()));
        }
        for name in own {
            if !names.contains(&name) {
                names.push(name);
            }
        }
    }
    names
}

/// The names that a macro opens to, by the lines of an accepted file alone.
fn opened(file: &[u8]) -> BTreeMap<String, BTreeSet<String>> {
    let boxes = ["BoxBool", "BoxInt", "BoxString", "BoxReal", "BoxProp"];
    let starting = boxes.map(|name| (format!("is-{name}"), BTreeSet::from([name.to_owned()])));
    let (mut macros, terms) = (BTreeMap::from(starting), free_names(file));
    for line in lines(file).iter().filter(|line| kind(line) == "def") {
        let fields = fields(line);
        macros.insert(fields[1].clone(), terms[fields[2].parse::<usize>().unwrap()].clone());
    }
    macros
}

/// The names met from each line that is a fact or a root.
fn met_from(file: &[u8]) -> BTreeMap<u32, BTreeSet<String>> {
    let (macros, terms) = (opened(file), free_names(file));
    let items = lines(file).into_iter().zip(1..).filter(|(line, _)| ["assume", "root"].contains(&kind(line).as_str()));
    let met = |line: &Line| -> BTreeSet<String> {
        let free = &terms[fields(line).last().unwrap().parse::<usize>().unwrap()];
        free.iter().cloned().chain(free.iter().filter_map(|name| macros.get(name)).flatten().cloned()).collect()
    };
    items.map(|(line, number)| (number, met(&line))).collect()
}

/// The lines that a position starts from: the roots of its chain, and without option 1 the ambient roots that it admits.
fn start(file: &[u8], chain: &[Position]) -> Vec<u32> {
    let (options, groups) = match chain[0] {
        Position::Ask(_, options) => (options, limits::GROUPS),
        Position::Ask2(_, options, groups) => (options, groups),
        Position::Also(_) => unreachable!("a chain begins with an ask line"),
    };
    let queries: Vec<String> = chain.iter().map(|position| position.query().to_string()).collect();
    let ambients: Vec<u32> = summaries(file)
        .expect("an accepted file")
        .iter()
        .filter(|fact| matches!(fact.trigger, Trigger::Ambient { root: true }))
        .map(|fact| fact.line)
        .collect();
    let is_item = |line: &Line, number: u32| match kind(line).as_str() {
        "root" => queries.contains(&fields(line)[1]),
        _ => options & 1 == 0 && ambients.contains(&number) && is_admitted(groups, line),
    };
    lines(file).iter().zip(1..).filter(|(line, number)| is_item(line, *number)).map(|(_, number)| number).collect()
}

/// Change 2: the rows at a position are of its reached facts, each of which has one, in their order; each name is one
/// of the fact's listed names, in byte order and by its number; the supplier has the name and is the first that the
/// position starts from, if one of these has it; suppliers lead back to what the position starts from. The met names
/// that have numbers are those of what is scanned.
#[test]
fn every_reached_fact_has_its_reasons() {
    let (mut supplied_by_facts, mut tokens, mut opened) = (0, 0, 0);
    for file in accepted(53, 300) {
        let (names, met_from, text) = (spelled(&file), met_from(&file), lines(&file));
        let facts = summaries(&file).expect("an accepted file");
        let free = free_names(&file);
        let all: Vec<Reasons> = reasons(&file).expect("an accepted file");
        let mut told = all.iter().zip(lists(&file).unwrap()).zip(1..);
        for chain in chains(&file) {
            for end in 1..=chain.len() {
                let ((reasons, list), position) = told.next().unwrap();
                assert_eq!(why(&file, position, LONG_ENOUGH, limits::REASON_ROWS).as_ref(), Ok(reasons));
                let start = start(&file, &chain[..end]);
                let reached = facts_and_reached(&file, &list).1;
                let mut with_rows: Vec<u32> = reasons.rows.iter().map(|reason| reason.row.line).collect();
                with_rows.dedup();
                assert_eq!(with_rows, reached);
                assert!(reasons
                    .rows
                    .windows(2)
                    .all(|pair| (pair[0].fact, pair[0].name) < (pair[1].fact, pair[1].name)));

                for reason in &reasons.rows {
                    let Row { line, number, cause } = reason.row;
                    assert_eq!(names[number as usize], reason.name);
                    let listed = facts.iter().find(|fact| fact.line == line).map(|fact| &fact.trigger);
                    assert!(
                        matches!(listed, Some(Trigger::Names(sets)) if sets.iter().flatten().any(|name| name == &reason.name))
                    );
                    let name = String::from_utf8(reason.name.to_vec()).unwrap();
                    assert!(met_from[&cause].contains(&name));
                    match start.iter().find(|item| met_from[item].contains(&name)) {
                        Some(&first) => assert_eq!(cause, first),
                        None => assert!(reached.contains(&cause)),
                    }
                    let supplier = fields(&text[cause as usize - 1]);
                    supplied_by_facts += usize::from(reached.contains(&cause));
                    tokens += usize::from(!met_from[&line].contains(&name));
                    opened += usize::from(!free[supplier.last().unwrap().parse::<usize>().unwrap()].contains(&name));
                }

                // Round by round: a fact has a round once all its suppliers have one.
                let mut settled: BTreeSet<u32> = start.iter().copied().collect();
                while let Some(next) = reached.iter().find(|&&fact| {
                    let mut own = reasons.rows.iter().filter(|reason| reason.row.line == fact);
                    !settled.contains(&fact) && own.all(|reason| settled.contains(&reason.row.cause))
                }) {
                    settled.insert(*next);
                }
                assert!(reached.iter().all(|fact| settled.contains(fact)));
                let met: BTreeSet<&String> = settled.iter().flat_map(|item| &met_from[item]).collect();
                let numbered = names.iter().filter(|name| met.iter().any(|met| met.as_bytes() == &name[..])).count();
                assert_eq!(reasons.met as usize, numbered);
            }
        }
    }
    let counts = (supplied_by_facts, tokens, opened);
    assert!(supplied_by_facts > 100 && tokens > 10 && opened > 50, "{counts:?}");
}

/// Change 11: on an also line the reasons and the passes are those of a fresh run over all roots so far.
#[test]
fn reasons_and_passes_of_an_also_line_are_those_of_a_fresh_run() {
    let mut others = (0, 0);
    for file in accepted(54, 500) {
        let (reasons, swept) = (reasons(&file).unwrap(), sweep(&file, LONG_ENOUGH, limits::ROOM).unwrap());
        let (count, mut index) = (positions(&file).len(), 0);
        for chain in chains(&file) {
            for end in 1..=chain.len() {
                // As many ask lines as there were ask and also lines, whose query has the roots of all queries so far.
                let queries: Vec<String> = chain[..end].iter().map(|position| position.query().to_string()).collect();
                let asks = with_positions(&file, &vec![chain[0]; count]);
                if asks.len() > limits::BYTES {
                    index += 1;
                    continue;
                }
                let joined = each_line(&asks, |_, old| {
                    let mut fields = fields(old);
                    if fields[0] == "root" && queries.contains(&fields[1]) {
                        fields[1] = queries[0].clone();
                    }
                    line(&fields)
                });
                assert_eq!(why(&joined, 1, LONG_ENOUGH, limits::REASON_ROWS).as_ref(), Ok(&reasons[index]));
                let fresh = &sweep(&joined, LONG_ENOUGH, limits::ROOM).unwrap()[0];
                assert_eq!((&fresh.lines, fresh.passes), (&swept[index].lines, swept[index].passes));
                others.0 += usize::from(end > 1 && reasons[index] != reasons[index - 1]);
                others.1 += usize::from(end > 1 && swept[index].passes != swept[index - 1].passes);
                index += 1;
            }
        }
    }
    assert!(others.0 > 40 && others.1 > 8, "{others:?}");
}

/// Changes 2, 10 and 14: in another sequence of the record lines each fact has rows of the same names and as many names
/// are met, but suppliers and passes may be others.
#[test]
fn suppliers_and_passes_depend_on_the_sequence() {
    let mut random = Random::new(55);
    let (mut suppliers, mut passes) = (0, 0);
    for file in accepted(55, 400) {
        let other = sequence::rearranged(&file, &mut random);
        let (own, after) = (reasons(&file).unwrap(), reasons(&other).unwrap());
        for (own, after) in own.iter().zip(&after) {
            let names = |reasons: &Reasons| -> Vec<(Vec<u8>, Vec<u8>)> {
                reasons.rows.iter().map(|reason| (reason.fact.to_vec(), reason.name.to_vec())).collect()
            };
            assert_eq!((names(own), own.met), (names(after), after.met));
            let items = |reasons: &Reasons| -> Vec<Vec<u8>> {
                reasons.rows.iter().map(|reason| reason.item.to_vec()).collect()
            };
            suppliers += usize::from(items(own) != items(after));
        }
        let told = |file: &[u8]| -> Vec<u32> {
            sweep(file, LONG_ENOUGH, limits::ROOM).unwrap().iter().map(|list| list.passes).collect()
        };
        passes += usize::from(told(&file) != told(&other));
    }
    assert!(suppliers > 10 && passes > 10, "{suppliers} {passes}");
}

/// Change 9: a row for each free name of each body whose def or fun stands on the same or a later line or nowhere, by
/// line and then by name. Without a row of the first sort no definition depends on itself.
#[test]
fn names_of_bodies_that_stand_late_or_nowhere() {
    let (mut rows, mut without, mut circles) = ([0, 0], 0, 0);
    for file in accepted(56, 500) {
        let (names, terms) = (spelled(&file), free_names(&file));
        let text: Vec<Vec<String>> = lines(&file).iter().map(|line| fields(line)).collect();
        let line_of = |name: &String| {
            let declares = |fields: &Vec<String>| ["def", "fun"].contains(&fields[0].as_str()) && fields[1] == *name;
            text.iter().position(declares).map(|index| index as u32 + 1)
        };
        let defs: Vec<(u32, &String, &BTreeSet<String>)> = text
            .iter()
            .zip(1..)
            .filter(|(fields, _)| fields[0] == "def")
            .map(|(fields, line)| (line, &fields[1], &terms[fields[2].parse::<usize>().unwrap()]))
            .collect();
        let mut right = Vec::new();
        for (line, _, body) in &defs {
            for name in *body {
                let number = names.iter().position(|spelled| spelled == name.as_bytes()).unwrap() as u32;
                let cause = line_of(name).map_or(NEITHER, |at| if at >= *line { LATE } else { 0 });
                if cause > 0 {
                    right.push(Row { line: *line, number, cause });
                }
            }
        }
        let Needs(needs) = order(&file, LONG_ENOUGH, right.len()).expect("a table that is long enough");
        assert_eq!(needs.iter().map(|need| need.row).collect::<Vec<Row>>(), right);
        if let Some(less) = right.len().checked_sub(1) {
            let refusal = Refusal { number: 8, place: right.len() as u32 };
            assert_eq!(order(&file, LONG_ENOUGH, less), Err(refusal));
        }

        // What each definition depends on, to any depth.
        let mut depends: BTreeMap<&String, BTreeSet<&String>> =
            defs.iter().map(|(_, def, body)| (*def, body.iter().collect())).collect();
        loop {
            let before: usize = depends.values().map(BTreeSet::len).sum();
            let further = depends.clone();
            for names in depends.values_mut() {
                let more: Vec<&String> = names.iter().filter_map(|name| further.get(name)).flatten().copied().collect();
                names.extend(more);
            }
            if depends.values().map(BTreeSet::len).sum::<usize>() == before {
                break;
            }
        }
        let is_circle = depends.iter().any(|(def, names)| names.contains(def));
        let is_late = right.iter().any(|row| row.cause == LATE);
        assert!(is_late || !is_circle);
        without += usize::from(!is_late && defs.len() > 1);
        circles += usize::from(is_circle);
        for row in right {
            rows[row.cause as usize - 1] += 1;
        }
    }
    assert!(rows.iter().all(|&rows| rows > 100) && without > 20 && circles > 20, "{rows:?} {without} {circles}");
}
