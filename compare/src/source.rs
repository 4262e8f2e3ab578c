//! The walk and the run of the source once more, step by step as the source goes, and the closed sets of demand 3 from
//! their definition. All are slow and plain, and are there to check [`crate::terms`] and [`crate::prune`] against.

use std::collections::{BTreeMap, BTreeSet, HashSet};

use crate::names::{NameId, NameSet};
use crate::prune::prune;
use crate::reader::{self, Ask, Background, Declaration};
use crate::rules::Kind;
use crate::terms::{Term, TermId};
use crate::{generate, Order};

type Bytes<'b> = &'b [u8];

struct Assumption<'b> {
    name: Bytes<'b>,
    line: u32,
    free_names: BTreeSet<Bytes<'b>>,
    pretyping: bool,
}

/// `pruning_state` and `ctxt`, with counts of the visits and the rounds.
struct State<'b> {
    assumptions: Vec<Assumption<'b>>,
    macro_freenames: BTreeMap<Bytes<'b>, BTreeSet<Bytes<'b>>>,
    trigger_to_assumption: BTreeMap<Bytes<'b>, Vec<usize>>,
    assumption_to_triggers: BTreeMap<usize, Vec<BTreeSet<Bytes<'b>>>>,
    ambients: Vec<usize>,
    extra_roots: Vec<usize>,
    reached: BTreeMap<Bytes<'b>, usize>,
    pretyping_axioms: bool,
    visits: u32,
    rounds: u32,
}

fn spelled<'b>(background: &Background<'b>, names: impl IntoIterator<Item = NameId>) -> BTreeSet<Bytes<'b>> {
    names.into_iter().map(|name| background.names.bytes(name)).collect()
}

impl<'b> State<'b> {
    /// `init` and `add_summaries`.
    fn new(background: &Background<'b>, ask: &Ask) -> Self {
        let macros: [(Bytes, Bytes); 5] = [
            (b"is-BoxBool", b"BoxBool"),
            (b"is-BoxInt", b"BoxInt"),
            (b"is-BoxString", b"BoxString"),
            (b"is-BoxReal", b"BoxReal"),
            (b"is-BoxProp", b"BoxProp"),
        ];
        let mut state = State {
            assumptions: Vec::new(),
            macro_freenames: macros.into_iter().map(|(name, opened)| (name, BTreeSet::from([opened]))).collect(),
            trigger_to_assumption: BTreeMap::new(),
            assumption_to_triggers: BTreeMap::new(),
            ambients: Vec::new(),
            extra_roots: Vec::new(),
            reached: BTreeMap::new(),
            pretyping_axioms: ask.pretyping_axioms,
            visits: 0,
            rounds: 0,
        };
        for (&name, free) in &background.macros {
            state.macro_freenames.insert(background.names.bytes(name), spelled(background, free.iter()));
        }
        // Change 13: the other facts are not there.
        let admitted = background.facts.iter().filter(|fact| ask.admits(fact));
        for (index, fact) in admitted.enumerate() {
            state.assumptions.push(Assumption {
                name: background.names.bytes(fact.name),
                line: fact.line,
                free_names: spelled(background, fact.free.iter()),
                pretyping: fact.pretyping,
            });
            match &fact.kind {
                Kind::Drop => {}
                Kind::Ambient { root } => {
                    if *root {
                        state.extra_roots.insert(0, index);
                    }
                    if !ask.no_ambients {
                        state.ambients.insert(0, index);
                    }
                }
                Kind::Triggers(disjuncts) => {
                    let sets: Vec<_> = disjuncts.iter().map(|names| spelled(background, names.clone())).collect();
                    for name in sets.iter().flatten() {
                        state.trigger_to_assumption.entry(name).or_default().insert(0, index);
                    }
                    state.assumption_to_triggers.insert(index, sets);
                }
            }
        }
        state
    }

    /// `trigger_pending_assumptions`.
    fn trigger_pending(&mut self, names: Vec<Bytes<'b>>) -> Vec<usize> {
        let mut triggered = Vec::new();
        for name in names {
            for fact in self.trigger_to_assumption.remove(name).unwrap_or_default() {
                self.visits += 1;
                let sets = self.assumption_to_triggers.get_mut(&fact).expect("a fact that waits");
                for set in sets.iter_mut() {
                    set.remove(name);
                }
                if sets.iter().any(BTreeSet::is_empty) {
                    triggered.insert(0, fact);
                }
            }
        }
        triggered
    }

    /// `scan`.
    fn scan(&mut self, mut items: Vec<BTreeSet<Bytes<'b>>>) {
        loop {
            self.rounds += 1;
            let mut names = Vec::new();
            for name in items.iter().flatten() {
                names.push(*name);
                names.extend(self.macro_freenames.get(name).into_iter().flatten());
            }
            let triggered = self.trigger_pending(names);
            if triggered.is_empty() {
                return;
            }
            items.clear();
            for fact in triggered {
                let assumption = &self.assumptions[fact];
                let retained = !assumption.pretyping || self.pretyping_axioms;
                if retained && !self.reached.contains_key(assumption.name) {
                    self.reached.insert(assumption.name, fact);
                    items.insert(0, assumption.free_names.clone());
                }
            }
        }
    }
}

/// The free names of each root of some queries, by line.
fn roots_of<'b>(background: &Background<'b>, queries: &[u32]) -> Vec<BTreeSet<Bytes<'b>>> {
    let roots = background.roots.iter().filter(|root| queries.contains(&root.query));
    roots.map(|root| spelled(background, root.free.iter())).collect()
}

/// The state after a run over the roots of some queries and, without option 1, the ambient roots.
fn source_run<'b>(background: &Background<'b>, ask: &Ask, queries: &[u32]) -> State<'b> {
    let mut state = State::new(background, ask);
    let mut roots = roots_of(background, queries);
    if !ask.no_ambients {
        roots.extend(state.extra_roots.iter().map(|&fact| state.assumptions[fact].free_names.clone()));
    }
    state.scan(roots);
    state
}

/// Change 11: the visits and the rounds of the last stretch, where the run of the first query goes on query by query.
fn last_stretch(background: &Background, ask: &Ask) -> (u32, u32) {
    let mut state = source_run(background, ask, &ask.queries[..1]);
    for query in &ask.queries[1..] {
        (state.visits, state.rounds) = (0, 0);
        state.scan(roots_of(background, &[*query]));
    }
    (state.visits, state.rounds)
}

/// `prune`: the kept lines, the visits and the rounds of a fresh run over the roots of all queries.
fn source_prune(background: &Background, ask: &Ask) -> (Vec<u32>, u32, u32) {
    let state = source_run(background, ask, &ask.queries);
    let own_roots = roots_of(background, &ask.queries);
    let kept: Vec<&Assumption> =
        state.reached.values().chain(&state.ambients).map(|&fact| &state.assumptions[fact]).collect();
    let mut lines: Vec<u32> = kept.iter().map(|assumption| assumption.line).collect();
    if ask.prune_decls {
        let mut included = BTreeSet::new();
        let mut met = Vec::new();
        for names in kept.iter().map(|assumption| &assumption.free_names).chain(&own_roots) {
            for name in names {
                let declared = background.names.find(name).and_then(|name| background.declarations.get(&name));
                if let Some(declaration) = declared {
                    if included.insert(name) {
                        met.insert(0, declaration);
                    }
                }
            }
        }
        let added = if ask.follow_bodies { added_by_bodies(background, &included) } else { Vec::new() };
        for is_fun in [false, true] {
            let group = met.iter().chain(&added).filter(|declaration| declaration.is_fun == is_fun);
            lines.extend(group.map(|declaration| declaration.line));
        }
    }
    (lines, state.visits, state.rounds)
}

/// Change 8: what the smallest closed set that holds these names has more, in byte order of name. A set is closed if the
/// def or fun of each name that is free in the body of one of its defs is in it.
fn added_by_bodies<'b>(background: &'b Background, included: &BTreeSet<&Bytes<'b>>) -> Vec<&'b Declaration> {
    let declared: BTreeMap<Bytes, (NameId, &Declaration)> = background
        .declarations
        .iter()
        .map(|(&name, declaration)| (background.names.bytes(name), (name, declaration)))
        .collect();
    let mut closed: BTreeSet<Bytes> = included.iter().map(|name| **name).collect();
    loop {
        let bodies = closed.iter().filter_map(|name| background.macros.get(&declared[name].0));
        let free: BTreeSet<Bytes> = bodies.flat_map(|free| spelled(background, free.iter())).collect();
        let next: BTreeSet<Bytes> =
            declared.keys().filter(|name| closed.contains(*name) || free.contains(*name)).copied().collect();
        if next == closed {
            let more = closed.iter().filter(|name| !included.contains(name));
            return more.map(|name| declared[name].1).collect();
        }
        closed = next;
    }
}

/// `free_top_level_names`, less the excluded names. A term already walked is not walked again.
fn walk(background: &Background, term: TermId, walked: &mut HashSet<TermId>, free: &mut NameSet) {
    if !walked.insert(term) {
        return;
    }
    let mut add = |name: NameId| {
        if !background.names.is_excluded(name) {
            free.insert(name);
        }
    };
    let parts: Vec<TermId> = match background.terms.term(term) {
        Term::Free(name) => {
            add(*name);
            Vec::new()
        }
        Term::Leaf => Vec::new(),
        Term::Call(name, parts) => {
            add(*name);
            parts.clone()
        }
        Term::Op(_, parts) => parts.clone(),
        Term::All { body, groups } | Term::Some { body, groups } => [groups.concat(), vec![*body]].concat(),
        Term::Let { body, bound } => [&bound[..], &[*body]].concat(),
        Term::Label(inner) => vec![*inner],
    };
    for part in parts {
        walk(background, part, walked, free);
    }
}

/// `free_top_level_names` of some terms together.
fn walk_all(background: &Background, terms: &[TermId]) -> NameSet {
    let (mut walked, mut free) = (HashSet::new(), NameSet::empty());
    for &term in terms {
        walk(background, term, &mut walked, &mut free);
    }
    free
}

/// `triggers_of_term`.
fn triggers_of_term(background: &Background, term: TermId) -> Vec<NameSet> {
    match background.terms.term(term) {
        Term::All { groups, .. } => groups.iter().map(|group| walk_all(background, group)).collect(),
        Term::Label(inner) => triggers_of_term(background, *inner),
        _ => Vec::new(),
    }
}

/// The names met from some sets, each macro opened one level.
fn met_from<'b>(state: &State<'b>, items: &[BTreeSet<Bytes<'b>>]) -> BTreeSet<Bytes<'b>> {
    let opened = items.iter().flatten().filter_map(|name| state.macro_freenames.get(name)).flatten();
    items.iter().flatten().chain(opened).copied().collect()
}

/// The lines of the least closed set of demand 3, and the visits.
fn least_closed_set(background: &Background, ask: &Ask) -> (BTreeSet<u32>, u32) {
    let state = State::new(background, ask);
    let fires = |met: &BTreeSet<Bytes>, disjuncts: &[BTreeSet<Bytes>]| {
        disjuncts.iter().flatten().any(|name| met.contains(name)) && disjuncts.iter().any(|names| names.is_subset(met))
    };
    let mut closed: BTreeSet<usize> = BTreeSet::new();
    loop {
        let mut items = roots_of(background, &ask.queries);
        let ambient_roots = state.extra_roots.iter().filter(|_| !ask.no_ambients);
        items.extend(ambient_roots.chain(&closed).map(|&fact| state.assumptions[fact].free_names.clone()));
        let met = met_from(&state, &items);
        let next: BTreeSet<usize> = state
            .assumption_to_triggers
            .iter()
            .filter(|(&fact, disjuncts)| {
                (!state.assumptions[fact].pretyping || state.pretyping_axioms) && fires(&met, disjuncts)
            })
            .map(|(&fact, _)| fact)
            .collect();
        if next == closed {
            let entries = state.assumption_to_triggers.values().flatten().flatten();
            let visits = entries.filter(|name| met.contains(*name)).count() as u32;
            return (closed.iter().map(|&fact| state.assumptions[fact].line).collect(), visits);
        }
        closed = next;
    }
}

fn check(name: &str, file: &[u8]) -> bool {
    let Ok(background) = reader::read(file) else { return false };
    for term in (0..background.terms.len()).rev().take(300) {
        assert_eq!(*background.terms.free_names(term), walk_all(&background, &[term]), "{name}, term {term}");
        assert_eq!(background.terms.triggers(term), triggers_of_term(&background, term), "{name}, term {term}");
    }
    let answers = prune(&background, Order::Source);
    assert_eq!(answers.len(), background.asks.len(), "{name}");
    let (mut visits, mut rounds) = (0, 0);
    for (ask, kept) in background.asks.iter().zip(answers) {
        if !ask.is_also() {
            (visits, rounds) = (0, 0);
        }
        assert_eq!((kept.visits, kept.rounds), last_stretch(&background, ask), "{name}");
        visits += kept.visits;
        rounds += kept.rounds - 1;
        check_ask(name, &background, ask, &kept.records, visits, rounds);
    }
    true
}

/// Checks the list of a position, the visits of its chain so far, and the rounds of its chain so far without the last of
/// each stretch.
fn check_ask(name: &str, background: &Background, ask: &Ask, records: &[(u32, NameId)], visits: u32, rounds: u32) {
    let lines: Vec<u32> = records.iter().map(|&(line, _)| line).collect();
    let (fresh_lines, fresh_visits, fresh_rounds) = source_prune(background, ask);
    assert_eq!((&lines, visits), (&fresh_lines, fresh_visits), "{name}");
    if !ask.is_also() {
        assert_eq!(rounds + 1, fresh_rounds, "{name}");
    }

    let fact = |line: &u32| background.facts.iter().find(|fact| fact.line == *line);
    let is_reached = |line: &&u32| fact(line).is_some_and(|fact| matches!(fact.kind, Kind::Triggers(_)));
    let reached: BTreeSet<u32> = lines.iter().filter(is_reached).copied().collect();
    assert_eq!((reached, visits), least_closed_set(background, ask), "{name}");

    let mut listed = NameSet::empty();
    for fact in background.facts.iter().filter(|fact| ask.admits(fact)) {
        if let Kind::Triggers(disjuncts) = &fact.kind {
            for &name in disjuncts.iter().flatten() {
                listed.insert(name);
            }
        }
    }
    assert!(rounds as usize <= listed.len(), "{name}");
}

#[test]
fn generated_files_run_as_the_source_does() {
    let accepted = generate::cases(11, 1_500).filter(|case| check(&case.name, &case.file)).count();
    assert!(accepted > 500, "only {accepted} files were accepted");
}

#[test]
fn edges_run_as_the_source_does() {
    for edge in crate::edges::edges() {
        // The slow runs take too long on the widest files.
        if !edge.case.name.starts_with("ugly-") {
            check(&edge.case.name, &edge.case.file);
        }
    }
}
