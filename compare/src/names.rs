//! The names of a file, numbered by first mention, and sets of them.

use std::collections::{HashMap, HashSet};

use crate::limits;

/// A name's number.
pub type NameId = usize;

/// Names that never count as free, in any file.
const EXCLUDED: [&[u8]; 9] =
    [b"SFuel", b"ZFuel", b"HasType", b"HasTypeZ", b"HasTypeFuel", b"Valid", b"ApplyTT", b"ApplyTF", b"Prims.lex_t"];

/// Every name met so far. The bytes stay where they are in the file.
#[derive(Default)]
pub struct Names<'a> {
    spelled: Vec<&'a [u8]>,
    numbers: HashMap<&'a [u8], NameId>,
    hidden: HashSet<NameId>,
}

impl<'a> Names<'a> {
    /// The number of a name, which is added if it is new.
    pub fn number(&mut self, name: &'a [u8]) -> NameId {
        let next = self.spelled.len();
        let id = *self.numbers.entry(name).or_insert(next);
        if id == next {
            self.spelled.push(name);
        }
        id
    }

    /// The number of a name that is already there.
    pub fn find(&self, name: &[u8]) -> Option<NameId> {
        self.numbers.get(name).copied()
    }

    /// The bytes of a name.
    pub fn bytes(&self, id: NameId) -> &'a [u8] {
        self.spelled[id]
    }

    /// Hides a name: from now on it does not count as free.
    pub fn hide(&mut self, id: NameId) {
        self.hidden.insert(id);
    }

    /// Whether the name is one that does not count as free: one of those of every file, or a hidden one.
    pub fn is_excluded(&self, id: NameId) -> bool {
        EXCLUDED.contains(&self.bytes(id)) || self.hidden.contains(&id)
    }

    /// How many names there are.
    pub fn len(&self) -> usize {
        self.spelled.len()
    }

    /// The names of a set in byte order, a prefix first.
    pub fn in_byte_order(&self, ids: impl IntoIterator<Item = NameId>) -> Vec<NameId> {
        let mut ids: Vec<NameId> = ids.into_iter().collect();
        ids.sort_unstable_by_key(|&id| self.bytes(id));
        ids
    }
}

const WORDS: usize = limits::NAMES / 64;

/// A set of name numbers below the limit of names, one bit each.
#[derive(Clone, Debug, PartialEq, Eq)]
pub struct NameSet([u64; WORDS]);

impl NameSet {
    /// The set without names.
    pub fn empty() -> Self {
        NameSet([0; WORDS])
    }

    /// Adds a name and says whether it is new.
    pub fn insert(&mut self, id: NameId) -> bool {
        let bit = 1 << (id % 64);
        let word = &mut self.0[id / 64];
        let new = *word & bit == 0;
        *word |= bit;
        new
    }

    /// Whether a name is in the set.
    pub fn contains(&self, id: NameId) -> bool {
        self.0[id / 64] >> (id % 64) & 1 == 1
    }

    /// Adds every name of another set.
    pub fn add_all(&mut self, other: &NameSet) {
        for (word, more) in self.0.iter_mut().zip(other.0) {
            *word |= more;
        }
    }

    /// How many names the set has.
    pub fn len(&self) -> usize {
        self.0.iter().map(|word| word.count_ones() as usize).sum()
    }

    /// Whether the set has no name.
    pub fn is_empty(&self) -> bool {
        self.0.iter().all(|&word| word == 0)
    }

    /// The names by number.
    pub fn iter(&self) -> impl Iterator<Item = NameId> + '_ {
        self.0.iter().enumerate().flat_map(|(index, &word)| {
            let mut rest = word;
            std::iter::from_fn(move || {
                if rest == 0 {
                    return None;
                }
                let bit = rest.trailing_zeros() as usize;
                rest &= rest - 1;
                Some(index * 64 + bit)
            })
        })
    }
}

#[cfg(test)]
mod tests {
    use super::*;

    #[test]
    fn a_name_has_one_number() {
        let mut names = Names::default();
        assert_eq!(names.number(b"p"), 0);
        assert_eq!(names.number(b"q"), 1);
        assert_eq!(names.number(b"p"), 0);
        assert_eq!(names.len(), 2);
        assert_eq!(names.bytes(1), b"q");
        assert_eq!(names.find(b"r"), None);
    }

    #[test]
    fn a_name_is_excluded_for_itself_or_since_it_is_hidden() {
        let mut names = Names::default();
        let [own, hidden, other] = [&b"ZFuel"[..], b"p", b"q"].map(|name| names.number(name));
        names.hide(hidden);
        names.hide(hidden);
        names.hide(own);
        assert_eq!([own, hidden, other].map(|name| names.is_excluded(name)), [true, true, false]);
    }

    #[test]
    fn byte_order_puts_a_prefix_first() {
        let mut names = Names::default();
        let ids: Vec<_> = [&b"b"[..], b"ab", b"a", b"B", b""].iter().map(|name| names.number(name)).collect();
        assert_eq!(names.in_byte_order(ids), [4, 3, 2, 1, 0]);
    }

    #[test]
    fn sets_hold_every_number() {
        let mut set = NameSet::empty();
        assert!(set.is_empty());
        for id in [2047, 0, 63, 64] {
            assert!(set.insert(id));
        }
        assert!(!set.insert(63));
        assert!([0, 63, 64, 2047].iter().all(|&id| set.contains(id)));
        assert!(![1, 62, 65, 2046].iter().any(|&id| set.contains(id)));
        assert_eq!(set.iter().collect::<Vec<_>>(), [0, 63, 64, 2047]);
        assert_eq!(set.len(), 4);
        let mut more = NameSet::empty();
        more.insert(65);
        more.add_all(&set);
        assert_eq!(more.len(), 5);
    }
}
