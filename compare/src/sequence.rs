//! Files with their record lines in another sequence.

use crate::random::Random;

/// An accepted file rearranged: its assume, fun, def, retain and root lines in a random sequence and at random places behind
/// the head, each behind the term that it names. The ask, also, hide and term lines stay in their sequence, so that terms
/// keep their numbers.
pub fn rearranged(file: &[u8], random: &mut Random) -> Vec<u8> {
    let lines = file.split_inclusive(|&byte| byte == b'\n');
    let (mut records, fixed): (Vec<&[u8]>, Vec<&[u8]>) = lines.partition(|line| moves(line));
    let head = fixed.iter().take_while(|line| HEAD.contains(&kind(line))).count();
    for index in (1..records.len()).rev() {
        records.swap(index, random.below(index + 1));
    }
    // The records behind each line that stays.
    let mut behind: Vec<Vec<&[u8]>> = vec![Vec::new(); fixed.len() + 1];
    for record in records {
        let first = term(record).map_or(head, |term| head + term + 1).min(fixed.len());
        behind[random.within(first..=fixed.len())].push(record);
    }
    let mut other = behind[0].concat();
    for (line, records) in fixed.iter().zip(&behind[1..]) {
        other.extend_from_slice(line);
        other.extend(records.concat());
    }
    other
}

/// The kinds of lines that a file begins with.
const HEAD: [&[u8]; 4] = [b"ask", b"ask2", b"also", b"hide"];

/// The first field of a line.
fn kind(line: &[u8]) -> &[u8] {
    line.split(|byte| b",\n".contains(byte)).next().unwrap_or_default()
}

/// Whether a line may stand elsewhere: a record line that is no hide line.
pub fn moves(line: &[u8]) -> bool {
    matches!(kind(line), b"assume" | b"fun" | b"def" | b"retain" | b"root")
}

/// The term that a record line names: its last field.
fn term(record: &[u8]) -> Option<usize> {
    let names_one = matches!(kind(record), b"assume" | b"def" | b"root");
    let last = record.strip_suffix(b"\n").unwrap_or(record).rsplit(|&byte| byte == b',').next()?;
    std::str::from_utf8(last).ok().filter(|_| names_one)?.parse().ok()
}

#[cfg(test)]
mod tests {
    use super::*;
    use crate::{edges, filter_file};
    use std::collections::BTreeSet;

    #[test]
    fn every_place_behind_a_term_is_taken() {
        let file = b"ask,0,0\nhide,p\nfree,p\nfree,q\ndef,g,0\nretain,7\n";
        let mut random = Random::new(1);
        let files: BTreeSet<Vec<u8>> = (0..400).map(|_| rearranged(file, &mut random)).collect();
        // The def line has two places and the retain line three; at two of the six together they stand in either sequence.
        assert_eq!(files.len(), 8);
        assert!(files.contains(&b"ask,0,0\nhide,p\nretain,7\nfree,p\ndef,g,0\nfree,q\n"[..]));
        assert!(files.iter().all(|file| filter_file(file).number() == 0));
    }

    #[test]
    fn the_terms_of_records() {
        for (line, number) in [
            ("assume,a,0,7\n", Some(7)),
            ("assume,a,0,3,7\n", Some(7)),
            ("def,g,12\n", Some(12)),
            ("root,3,r,5\n", Some(5)),
            ("fun,5\n", None),
            ("retain\n", None),
            ("retain,a,5\n", None),
        ] {
            assert_eq!((moves(line.as_bytes()), term(line.as_bytes())), (true, number), "{line}");
        }
        assert!(!["ask2,0,0,1\n", "also,1\n", "hide,fun\n", "leaf\n", "free,def\n"]
            .iter()
            .any(|line| moves(line.as_bytes())));
    }

    #[test]
    fn an_accepted_file_at_a_limit_is_accepted_rearranged() {
        let (mut random, mut accepted) = (Random::new(2), 0);
        for edge in edges::edges() {
            let file = &edge.case.file;
            if filter_file(file).number() == 0 {
                let other = rearranged(file, &mut random);
                assert_eq!(filter_file(&other).number(), 0, "{}", edge.case.name);
                accepted += usize::from(other != *file);
            }
        }
        assert!(accepted > 300, "{accepted}");
    }
}
