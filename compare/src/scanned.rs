//! What the reasons and the second engine ask of a file, in plain definitions: the items that a position starts from,
//! the names met from an item, and when a fact is triggered or fires.

use std::collections::HashMap;

use crate::names::{NameId, NameSet};
use crate::prune::{is_ambient, macros};
use crate::reader::{Ask, Background, Fact};
use crate::rules::Kind;

/// A root or a fact that is scanned.
pub struct Item {
    pub line: u32,
    pub name: NameId,
    /// The names met from it: its free names, and those that a macro among them opens to.
    pub names: NameSet,
}

/// Makes items of roots and facts.
pub struct Scanner {
    macros: HashMap<NameId, Vec<NameId>>,
}

impl Scanner {
    pub fn new(background: &Background) -> Self {
        Scanner { macros: macros(background) }
    }

    fn item(&self, line: u32, name: NameId, free: &NameSet) -> Item {
        let mut names = free.clone();
        for macro_name in free.iter() {
            for &opened in self.macros.get(&macro_name).into_iter().flatten() {
                names.insert(opened);
            }
        }
        Item { line, name, names }
    }

    /// A fact that is scanned.
    pub fn fact(&self, fact: &Fact) -> Item {
        self.item(fact.line, fact.name, &fact.free)
    }

    /// What a fresh run starts from: the roots of all queries of the position's chain, and without option 1 the ambient
    /// roots that are admitted.
    pub fn start(&self, background: &Background, ask: &Ask) -> Vec<Item> {
        let roots = background.roots.iter().filter(|root| ask.queries.contains(&root.query));
        let ambients = background.facts.iter().filter(|fact| fact.kind == Kind::Ambient { root: true });
        let roots = roots.map(|root| self.item(root.line, root.name, &root.free));
        roots.chain(ambients.filter(|fact| is_ambient(ask, fact)).map(|fact| self.fact(fact))).collect()
    }
}

/// The disjuncts of a fact; one without triggers has none.
pub fn disjuncts(fact: &Fact) -> &[Vec<NameId>] {
    match &fact.kind {
        Kind::Triggers(disjuncts) => disjuncts,
        Kind::Drop | Kind::Ambient { .. } => &[],
    }
}

/// The listed names of a fact: those of its disjuncts, one that stands in several as often.
pub fn listed(fact: &Fact) -> impl Iterator<Item = NameId> + '_ {
    disjuncts(fact).iter().flatten().copied()
}

/// Whether a disjunct of a fact lies wholly within some names.
pub fn is_satisfied(fact: &Fact, met: &NameSet) -> bool {
    disjuncts(fact).iter().any(|names| names.iter().all(|&name| met.contains(name)))
}

/// Whether a fact fires on some names.
pub fn fires(fact: &Fact, met: &NameSet) -> bool {
    listed(fact).any(|name| met.contains(name)) && is_satisfied(fact, met)
}

/// Whether a fact may be reached for an ask: it is admitted, and it is no pretyping fact or option 2 is on.
pub fn is_retainable(ask: &Ask, fact: &Fact) -> bool {
    ask.admits(fact) && (!fact.pretyping || ask.pretyping_axioms)
}
