//! The terms of a file. What is asked of a term is settled when its line is read, so that shared terms cost nothing:
//! its free names, and the `all` that it comes down to through labels.

use crate::names::{NameId, NameSet, Names};

/// A term's number.
pub type TermId = usize;

/// The word of an `op` line.
#[derive(Clone, Copy, Debug, PartialEq, Eq)]
pub enum Op {
    True,
    Iff,
    Eq,
    And,
    Other,
}

/// A term line.
#[derive(Debug)]
pub enum Term {
    Free(NameId),
    Leaf,
    Call(NameId, Vec<TermId>),
    Op(Op, Vec<TermId>),
    All { body: TermId, groups: Vec<Vec<TermId>> },
    Some { body: TermId, groups: Vec<Vec<TermId>> },
    Let { body: TermId, bound: Vec<TermId> },
    Label(TermId),
}

impl Term {
    /// The terms that the line names.
    fn references(&self) -> Vec<TermId> {
        match self {
            Term::Free(_) | Term::Leaf => Vec::new(),
            Term::Call(_, parts) | Term::Op(_, parts) => parts.clone(),
            Term::All { body, groups } | Term::Some { body, groups } => {
                groups.iter().flatten().chain([body]).copied().collect()
            }
            Term::Let { body, bound } => bound.iter().chain([body]).copied().collect(),
            Term::Label(inner) => vec![*inner],
        }
    }
}

struct Line {
    term: Term,
    /// The free names, without the excluded ones.
    free: NameSet,
    /// One set of names for each pattern group of an `all`.
    groups: Vec<NameSet>,
    /// The `all` that this term is, or is a label of.
    quantified: Option<TermId>,
}

/// The term lines read so far.
#[derive(Default)]
pub struct Terms {
    lines: Vec<Line>,
    /// How many terms the lines name, each mention counted.
    references: usize,
}

impl Terms {
    /// How many term lines there are.
    pub fn len(&self) -> usize {
        self.lines.len()
    }

    /// Adds a term unless the references then pass `limit`, and says whether it did.
    pub fn add(&mut self, term: Term, names: &Names, limit: usize) -> bool {
        let references = term.references();
        if references.len() > limit - self.references {
            return false;
        }
        self.references += references.len();
        let mut free = self.union(&references);
        if let Term::Free(name) | Term::Call(name, _) = term {
            if !names.is_excluded(name) {
                free.insert(name);
            }
        }
        let (groups, quantified) = match &term {
            Term::All { groups, .. } => (groups.iter().map(|group| self.union(group)).collect(), Some(self.len())),
            Term::Label(inner) => (Vec::new(), self.lines[*inner].quantified),
            _ => (Vec::new(), None),
        };
        self.lines.push(Line { term, free, groups, quantified });
        true
    }

    fn union(&self, terms: &[TermId]) -> NameSet {
        let mut names = NameSet::empty();
        for &term in terms {
            names.add_all(self.free_names(term));
        }
        names
    }

    /// The term of a line.
    pub fn term(&self, id: TermId) -> &Term {
        &self.lines[id].term
    }

    /// `free_top_level_names`: every `free`, every head of a `call`, patterns too, less the excluded names.
    pub fn free_names(&self, id: TermId) -> &NameSet {
        &self.lines[id].free
    }

    /// `triggers_of_term`: for an `all`, or a label of one, a set of names for each group; else none.
    pub fn triggers(&self, id: TermId) -> &[NameSet] {
        self.lines[id].quantified.map_or(&[], |all| &self.lines[all].groups)
    }
}
