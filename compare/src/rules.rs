//! How a fact is triggered: `summarize_assumption` and the twelve rules of `maybe_add_ambient`.

use crate::names::{NameId, NameSet, Names};
use crate::terms::{Op, Term, TermId, Terms};

/// How a fact is triggered.
#[derive(Clone, Debug, PartialEq, Eq)]
pub enum Kind {
    /// Never kept.
    Drop,
    /// Always kept; a root is also scanned.
    Ambient { root: bool },
    /// Kept when it fires. Each disjunct is a list of distinct names.
    Triggers(Vec<Vec<NameId>>),
}

impl Kind {
    /// What the fact counts towards the limit of trigger entries: an empty disjunct counts as one.
    pub fn entries(&self) -> usize {
        match self {
            Kind::Triggers(disjuncts) => disjuncts.iter().map(|names| names.len().max(1)).sum(),
            Kind::Drop | Kind::Ambient { .. } => 0,
        }
    }

    /// The disjuncts of some sets of names, or `None` once they count more than `room` entries.
    fn triggers<'s>(sets: impl IntoIterator<Item = &'s NameSet>, mut room: usize) -> Option<Kind> {
        let mut disjuncts = Vec::new();
        for set in sets {
            room = room.checked_sub(set.len().max(1))?;
            disjuncts.push(set.iter().collect());
        }
        Some(Kind::Triggers(disjuncts))
    }
}

/// The kind of a fact, or `None` if its disjuncts count more than `room` entries.
///
/// A trimmed token is added to the names.
pub fn summarize<'a>(name: &[u8], fact: TermId, terms: &Terms, names: &mut Names<'a>, room: usize) -> Option<Kind> {
    let triggers = terms.triggers(fact);
    if !triggers.is_empty() {
        return Kind::triggers(triggers, room);
    }
    let free = |term: TermId| terms.free_names(term);

    match terms.term(fact) {
        // 1: an interpretation of a quantifier.
        Term::Op(Op::Iff, parts) if parts.len() == 2 && name.starts_with(b"l_quant_interp") => {
            Kind::triggers([free(parts[0])], room)
        }
        // 2: a fact that the user assumed.
        _ if name.starts_with(b"assumption_") => Kind::triggers([free(fact)], room),
        Term::Call(head, parts) => match (names.bytes(*head), parts.as_slice()) {
            // 3: membership in a squash or a refinement.
            (b"HasType", &[_, ty]) if is_ambient_refinement(ty, terms, names) => {
                match terms.triggers(refinement_payload(ty, terms, names)) {
                    [] => Some(Kind::Ambient { root: true }),
                    [only] if only.is_empty() => Some(Kind::Ambient { root: true }),
                    triggers => Kind::triggers(triggers, room),
                }
            }
            // 4: a partial application. 5: its `Valid`.
            (b"Valid", &[inner]) => match partial_application(inner, terms, names) {
                Some(token) => {
                    let kind = Kind::Triggers(token_disjuncts(token, terms, names));
                    (kind.entries() <= room).then_some(kind)
                }
                None => Kind::triggers([free(inner)], room),
            },
            // 5: heads too common to be triggers.
            (b"HasType", &[first, _]) | (b"IsTotFun" | b"is-Tm_arrow", &[first]) => Kind::triggers([free(first)], room),
            _ => Some(Kind::Ambient { root: false }),
        },
        Term::Op(Op::Eq, parts) if parts.len() == 2 => {
            let (left, right) = (parts[0], parts[1]);
            match call(right, terms, names) {
                // 6: the number of a constructor.
                Some((b"Term_constr_id", &[argument])) => Kind::triggers([free(argument)], room),
                // 8: a definition, from left to right.
                _ if name.starts_with(b"equation_") => Kind::triggers([free(left)], room),
                // 10: any other equation.
                _ => Kind::triggers([free(left), free(right)], room),
            }
        }
        // 7: the triggers of all parts.
        Term::Op(Op::And, parts) => Kind::triggers(parts.iter().flat_map(|&part| terms.triggers(part)), room),
        // 9: an equivalence; of two `hasEq`, from left to right.
        Term::Op(Op::Iff, parts) if parts.len() == 2 => {
            match (has_eq(parts[0], terms, names), has_eq(parts[1], terms, names)) {
                (Some(left), Some(_)) => Kind::triggers([free(left)], room),
                _ => Kind::triggers([free(parts[0]), free(parts[1])], room),
            }
        }
        // 11: nothing said.
        Term::Op(Op::True, _) => Some(Kind::Drop),
        // 12: all else.
        _ => Some(Kind::Ambient { root: false }),
    }
}

/// The head and the arguments of a `call`.
fn call<'t, 'a>(term: TermId, terms: &'t Terms, names: &Names<'a>) -> Option<(&'a [u8], &'t [TermId])> {
    match terms.term(term) {
        Term::Call(head, parts) => Some((names.bytes(*head), parts)),
        _ => None,
    }
}

fn is_ambient_refinement(ty: TermId, terms: &Terms, names: &Names) -> bool {
    match terms.term(ty) {
        Term::Call(head, _) if names.bytes(*head) == b"Prims.squash" => true,
        Term::Call(name, _) | Term::Free(name) => names.bytes(*name).starts_with(b"Tm_refine_"),
        _ => false,
    }
}

/// What a squash of two holds; else the type itself.
fn refinement_payload(ty: TermId, terms: &Terms, names: &Names) -> TermId {
    match call(ty, terms, names) {
        Some((b"Prims.squash", &[_, payload])) => payload,
        _ => ty,
    }
}

/// The token term of `ApplyTT` of `__uu__PartialApp` and a token.
fn partial_application(term: TermId, terms: &Terms, names: &Names) -> Option<TermId> {
    match call(term, terms, names) {
        Some((b"ApplyTT", &[marker, token])) => match terms.term(marker) {
            Term::Free(name) | Term::Call(name, _) if names.bytes(*name) == b"__uu__PartialApp" => Some(token),
            _ => None,
        },
        _ => None,
    }
}

/// The token, and the token less its ending `@tok`. Excluded names stay.
fn token_disjuncts(token: TermId, terms: &Terms, names: &mut Names) -> Vec<Vec<NameId>> {
    let token = match terms.term(token) {
        Term::Free(name) => *name,
        Term::Call(name, parts) if parts.is_empty() => *name,
        _ => return Vec::new(),
    };
    match names.bytes(token).strip_suffix(b"@tok") {
        Some(trimmed) => vec![vec![token], vec![names.number(trimmed)]],
        None => vec![vec![token]],
    }
}

/// The second argument of `Prims.hasEq` in `Valid` of `Prims.hasEq` of two.
fn has_eq(term: TermId, terms: &Terms, names: &Names) -> Option<TermId> {
    match call(term, terms, names) {
        Some((b"Valid", &[inner])) => match call(inner, terms, names) {
            Some((b"Prims.hasEq", &[_, argument])) => Some(argument),
            _ => None,
        },
        _ => None,
    }
}
