//! Which facts the roots reach, and what is kept: `scan` and `prune`.

use std::collections::{HashMap, HashSet};

use crate::names::{NameId, NameSet};
use crate::reader::{Ask, Background, Fact};
use crate::rules::Kind;
use crate::Order;

/// The macros that stand at the start, each with the name that it opens to.
const BOX_MACROS: [(&[u8], &[u8]); 5] = [
    (b"is-BoxBool", b"BoxBool"),
    (b"is-BoxInt", b"BoxInt"),
    (b"is-BoxString", b"BoxString"),
    (b"is-BoxReal", b"BoxReal"),
    (b"is-BoxProp", b"BoxProp"),
];

/// Lines with their names, in order.
type Records = Vec<(u32, NameId)>;

/// What a position keeps, and the counts of its run or, on an also line, of its stretch.
pub struct Kept {
    pub records: Records,
    pub visits: u32,
    pub rounds: u32,
}

/// The answer to each ask and also line of a file, in their sequence.
pub fn prune(background: &Background, order: Order) -> Vec<Kept> {
    let mut chain = None;
    let mut answers = Vec::new();
    for ask in &background.asks {
        let before = chain.take().filter(|_| ask.is_also());
        let scan = chain.insert(before.unwrap_or_else(|| Scan::new(background, ask)));
        scan.stretch(ask);
        let records = records(background, ask, &scan.reached, order);
        answers.push(Kept { records, visits: scan.visits, rounds: scan.rounds });
    }
    answers
}

/// The free names of the roots of some queries, by line.
fn roots_of<'b>(background: &'b Background, queries: &'b [u32]) -> impl Iterator<Item = &'b NameSet> {
    background.roots.iter().filter(|root| queries.contains(&root.query)).map(|root| &root.free)
}

/// The names that each macro opens to: the starting macros, as far as both names are spelled and no def replaces them,
/// and the defs.
pub fn macros(background: &Background) -> HashMap<NameId, Vec<NameId>> {
    let mut macros = HashMap::new();
    for (from, to) in BOX_MACROS {
        if let (Some(from), Some(to)) = (background.names.find(from), background.names.find(to)) {
            macros.insert(from, vec![to]);
        }
    }
    macros.extend(background.macros.iter().map(|(&name, free)| (name, free.iter().collect())));
    macros
}

/// Whether a fact is ambient and counts for an ask.
pub fn is_ambient(ask: &Ask, fact: &Fact) -> bool {
    !ask.no_ambients && ask.admits(fact) && matches!(fact.kind, Kind::Ambient { .. })
}

/// What is kept where these facts are reached.
pub fn records(background: &Background, ask: &Ask, reached: &HashSet<usize>, order: Order) -> Records {
    let Background { names, facts, .. } = background;
    let mut kept: Vec<&Fact> = reached.iter().map(|&fact| &facts[fact]).collect();
    kept.sort_unstable_by_key(|fact| names.bytes(fact.name));
    kept.extend(facts.iter().rev().filter(|fact| is_ambient(ask, fact)));

    let mut records: Records = kept.iter().map(|fact| (fact.line, fact.name)).collect();
    if ask.prune_decls {
        let free = kept.iter().map(|fact| &fact.free).chain(roots_of(background, &ask.queries));
        records.extend(declarations(background, free, ask.follow_bodies, order));
    }
    records
}

/// The defs and then the funs named in some sets; if bodies are followed, at the end of each of the two those that the
/// bodies of kept defs add.
fn declarations<'s>(
    background: &Background,
    free: impl Iterator<Item = &'s NameSet>,
    follow_bodies: bool,
    order: Order,
) -> Records {
    let mut seen = HashSet::new();
    let (mut defs, mut funs) = (Vec::new(), Vec::new());
    for set in free {
        for name in background.names.in_byte_order(set.iter()) {
            if let Some(declaration) = background.declarations.get(&name) {
                if seen.insert(name) {
                    let group = if declaration.is_fun { &mut funs } else { &mut defs };
                    group.push((declaration.line, name));
                }
            }
        }
    }
    for group in [&mut defs, &mut funs] {
        match order {
            Order::Source => group.reverse(),
            Order::Line => group.sort_unstable(),
        }
    }
    if follow_bodies {
        let (more_defs, more_funs) = followed(background, &defs, seen);
        defs.extend(more_defs);
        funs.extend(more_funs);
    }
    defs.append(&mut funs);
    defs
}

/// The defs and the funs that are not among those seen and are named in the bodies of some defs, or of defs found so; each
/// by name in byte order.
fn followed(background: &Background, defs: &[(u32, NameId)], mut seen: HashSet<NameId>) -> (Records, Records) {
    let mut found = Vec::new();
    let mut bodies: Vec<NameId> = defs.iter().map(|&(_, name)| name).collect();
    while let Some(def) = bodies.pop() {
        for name in background.macros[&def].iter() {
            if let Some(declaration) = background.declarations.get(&name) {
                if seen.insert(name) {
                    found.push((declaration, name));
                    if !declaration.is_fun {
                        bodies.push(name);
                    }
                }
            }
        }
    }
    found.sort_unstable_by_key(|&(_, name)| background.names.bytes(name));
    let group = |is_fun: bool| {
        let of_group = found.iter().filter(|(declaration, _)| declaration.is_fun == is_fun);
        of_group.map(|&(declaration, name)| (declaration.line, name)).collect()
    };
    (group(false), group(true))
}

/// One disjunct of one fact that waits on a name.
struct Entry {
    fact: usize,
    disjunct: usize,
}

/// The state of the rounds of one chain: an ask line and its also lines.
struct Scan<'b> {
    background: &'b Background<'b>,
    /// Whether pretyping facts are retainable.
    pretyping_axioms: bool,
    /// The names that each macro opens to.
    macros: HashMap<NameId, Vec<NameId>>,
    /// The entries of admitted facts filed under each name.
    waiting: HashMap<NameId, Vec<Entry>>,
    /// How many names of each disjunct of each fact are not met yet.
    missing: Vec<Vec<usize>>,
    /// For each fact, whether one of its disjuncts is wholly met.
    satisfied: Vec<bool>,
    met: NameSet,
    reached: HashSet<usize>,
    /// The counts of the last stretch.
    visits: u32,
    rounds: u32,
}

impl<'b> Scan<'b> {
    /// The start of the chain of an ask line: all admitted facts are filed.
    fn new(background: &'b Background<'b>, ask: &Ask) -> Self {
        let mut scan = Scan {
            background,
            pretyping_axioms: ask.pretyping_axioms,
            macros: macros(background),
            waiting: HashMap::new(),
            missing: Vec::new(),
            satisfied: Vec::new(),
            met: NameSet::empty(),
            reached: HashSet::new(),
            visits: 0,
            rounds: 0,
        };
        for (fact, record) in background.facts.iter().enumerate() {
            let mut missing = Vec::new();
            let disjuncts: &[Vec<NameId>] = match &record.kind {
                Kind::Triggers(disjuncts) if ask.admits(record) => disjuncts,
                _ => &[],
            };
            for (disjunct, names) in disjuncts.iter().enumerate() {
                missing.push(names.len());
                for &name in names {
                    scan.waiting.entry(name).or_default().push(Entry { fact, disjunct });
                }
            }
            scan.satisfied.push(missing.contains(&0));
            scan.missing.push(missing);
        }
        scan
    }

    /// Goes on with the roots of a position's own query; an ask line has the ambient roots as well.
    fn stretch(&mut self, ask: &'b Ask) {
        (self.visits, self.rounds) = (0, 0);
        let own = &ask.queries[ask.queries.len() - 1..];
        let mut scanned: Vec<&NameSet> = roots_of(self.background, own).collect();
        if !ask.is_also() {
            let ambients = self.background.facts.iter().filter(|fact| is_ambient(ask, fact));
            scanned.extend(ambients.filter(|fact| fact.kind == Kind::Ambient { root: true }).map(|fact| &fact.free));
        }
        self.run(scanned);
    }

    /// Scans round by round until one triggers nothing.
    fn run(&mut self, mut scanned: Vec<&'b NameSet>) {
        loop {
            let triggered = self.round(&scanned);
            if triggered.is_empty() {
                return;
            }
            scanned.clear();
            for fact in triggered {
                if self.is_retainable(fact) && self.reached.insert(fact) {
                    scanned.push(&self.background.facts[fact].free);
                }
            }
        }
    }

    /// Meets the names of what is scanned, and gives the facts that this triggers.
    fn round(&mut self, scanned: &[&NameSet]) -> Vec<usize> {
        self.rounds += 1;
        let mut touched = HashSet::new();
        for set in scanned {
            for name in set.iter() {
                self.meet(name, &mut touched);
                for opened in self.macros.get(&name).cloned().unwrap_or_default() {
                    self.meet(opened, &mut touched);
                }
            }
        }
        touched.into_iter().filter(|&fact| self.satisfied[fact]).collect()
    }

    /// Meets a name. The facts with an entry under it are touched if it is new.
    fn meet(&mut self, name: NameId, touched: &mut HashSet<usize>) {
        if !self.met.insert(name) {
            return;
        }
        for entry in self.waiting.get(&name).into_iter().flatten() {
            self.visits += 1;
            let missing = &mut self.missing[entry.fact][entry.disjunct];
            *missing -= 1;
            if *missing == 0 {
                self.satisfied[entry.fact] = true;
            }
            touched.insert(entry.fact);
        }
    }

    /// `should_retain_assumption`.
    fn is_retainable(&self, fact: usize) -> bool {
        !self.background.facts[fact].pretyping || self.pretyping_axioms
    }
}
