//! The names of a file by number.

use std::collections::HashSet;

/// The names of an accepted file by their numbers, which the rows of [`why`](crate::why) and
/// [`order`](crate::order) have.
///
/// Names are numbered from 0 in the order in which the file spells them first, line by line and from the left. A token that
/// rule 4 of `docs/FORMAT.md` shortens takes its number after the name of its fact, unless it has one. This is plain Rust over
/// the bytes of the file: the numbers in a row are proved, the names found here are not.
///
/// ```
/// let names = wimplejade::Names::of(b"ask,0,0\nfree,p\ncall,f,0\nassume,a,0,1\nroot,0,p,0\n");
/// assert_eq!(names.iter().collect::<Vec<_>>(), [b"p", b"f", b"a"]);
/// assert_eq!(names.get(1), Some(&b"f"[..]));
/// ```
#[derive(Clone, Debug, PartialEq, Eq)]
pub struct Names<'f> {
    names: Vec<&'f [u8]>,
}

impl<'f> Names<'f> {
    /// Numbers the names of a file. If the file is refused, they mean nothing.
    #[must_use]
    pub fn of(file: &'f [u8]) -> Self {
        let (mut names, mut spelled, mut terms) = (Vec::new(), HashSet::new(), Vec::new());
        let mut spell = |name: &'f [u8]| {
            if spelled.insert(name) {
                names.push(name);
            }
        };
        for line in file.split(|&byte| byte == b'\n') {
            let fields: Vec<&[u8]> = line.split(|&byte| byte == b',').collect();
            match fields[..] {
                [b"free" | b"call" | b"hide" | b"def" | b"fun", name, ..] | [b"root", _, name, ..] => spell(name),
                [b"retain", ref names @ ..] => names.iter().copied().for_each(&mut spell),
                [b"assume", name, .., term] => {
                    spell(name);
                    trimmed(&terms, name, term).into_iter().for_each(&mut spell);
                }
                _ => {}
            }
            if let b"free" | b"leaf" | b"call" | b"op" | b"all" | b"some" | b"let" | b"label" = fields[0] {
                terms.push(fields);
            }
        }
        Names { names }
    }

    /// The name of a number.
    #[must_use]
    pub fn get(&self, number: u32) -> Option<&'f [u8]> {
        self.names.get(number as usize).copied()
    }

    /// The names in the order of their numbers.
    pub fn iter(&self) -> impl ExactSizeIterator<Item = &'f [u8]> + '_ {
        self.names.iter().copied()
    }
}

/// The token of a fact's term, without the four bytes that rule 4 takes off; none where that is not the rule of the fact, or
/// the token has them not. The rules before it have other terms, but for that of names which start with `assumption_`.
fn trimmed<'f>(terms: &[Vec<&'f [u8]>], fact: &[u8], term: &[u8]) -> Option<&'f [u8]> {
    let fields = |number: &[u8]| terms.get(std::str::from_utf8(number).ok()?.parse::<usize>().ok()?);
    if fact.starts_with(b"assumption_") {
        return None;
    }
    let [b"call", b"Valid", applied] = fields(term)?[..] else { return None };
    let [b"call", b"ApplyTT", head, token] = fields(applied)?[..] else { return None };
    let [b"free" | b"call", b"__uu__PartialApp", ..] = fields(head)?[..] else { return None };
    let [b"free" | b"call", name] = fields(token)?[..] else { return None };
    name.strip_suffix(b"@tok")
}

#[cfg(test)]
mod tests {
    use super::*;

    /// The names of a file, each after a blank.
    fn spelled(file: &str) -> String {
        Names::of(file.as_bytes()).iter().map(|name| format!(" {}", std::str::from_utf8(name).unwrap())).collect()
    }

    #[test]
    fn names_are_numbered_as_they_are_spelled_first() {
        let file = "ask,1,0\nhide,h\nfree,p\ncall,f,0\nop,eq,0,1\nassume,a,0,2\nretain,p,x,a\nretain\nfun,f\ndef,g,0\n\
            root,1,goal,0\nleaf\nall,0,1,1,1\n";
        assert_eq!(spelled(file), " h p f a x g goal");
        assert_eq!(spelled("ask,0,0\n"), "");
    }

    #[test]
    fn a_trimmed_token_stands_after_the_name_of_its_fact() {
        let terms = "free,__uu__PartialApp\nfree,f@tok\ncall,ApplyTT,0,1\ncall,Valid,2\n";
        let of = |ask: &str, fact: &str| spelled(&format!("{ask}\n{terms}{fact}\nfree,p\nfree,f\n"));
        let before = " __uu__PartialApp f@tok ApplyTT Valid";
        assert_eq!(of("ask,0,0", "assume,t,0,3"), format!("{before} t f p"));
        assert_eq!(of("ask2,0,0,0", "assume,t,0,15,3"), format!("{before} t f p"));
        assert_eq!(of("ask,0,0", "assume,f,0,3"), format!("{before} f p"));
        assert_eq!(of("ask,0,0", "assume,assumption_t,0,3"), format!("{before} assumption_t p f"));
        assert_eq!(of("ask,0,0", "assume,t,0,2"), format!("{before} t p f"));
        assert_eq!(of("ask,0,0", "label,3\nassume,t,0,4"), format!("{before} t p f"));
    }
}
