//! Making a failing file small.

use std::collections::BTreeSet;

/// How often a file is tried at most.
const MOST_TRIES: usize = 20_000;

/// A small file that still fails, made from one that does.
pub fn shrink(file: &[u8], fails: impl FnMut(&[u8]) -> bool) -> Vec<u8> {
    let mut shrinker = Shrinker { best: file.to_vec(), tries: 0, fails };
    loop {
        let before = shrinker.best.len();
        shrinker.drop_lines();
        shrinker.drop_terms();
        shrinker.plain_terms();
        shrinker.drop_fields();
        shrinker.short_names();
        shrinker.drop_bytes();
        if shrinker.best.len() >= before || shrinker.tries >= MOST_TRIES {
            return shrinker.best;
        }
    }
}

struct Shrinker<Fails> {
    best: Vec<u8>,
    tries: usize,
    fails: Fails,
}

type Line = Vec<u8>;

impl<Fails: FnMut(&[u8]) -> bool> Shrinker<Fails> {
    /// Takes a shorter file if it fails too.
    fn take(&mut self, file: Vec<u8>) -> bool {
        if file.len() >= self.best.len() || self.tries >= MOST_TRIES {
            return false;
        }
        self.tries += 1;
        let fails = (self.fails)(&file);
        if fails {
            self.best = file;
        }
        fails
    }

    fn lines(&self) -> Vec<Line> {
        self.best.split_inclusive(|&byte| byte == b'\n').map(<[u8]>::to_vec).collect()
    }

    /// Drops runs of parts, long runs first.
    fn drop_runs(&mut self, parts: impl Fn(&Self) -> Vec<Line>) {
        let mut run = parts(self).len().div_ceil(2);
        while run > 0 {
            let mut at = parts(self).len();
            while at > 0 {
                let mut rest = parts(self);
                let start = at.saturating_sub(run);
                rest.drain(start..at.min(rest.len()));
                self.take(rest.concat());
                at = start;
            }
            run /= 2;
        }
    }

    fn drop_lines(&mut self) {
        self.drop_runs(Self::lines);
    }

    fn drop_bytes(&mut self) {
        if self.best.len() < 5_000 {
            self.drop_runs(|shrinker| shrinker.best.iter().map(|&byte| vec![byte]).collect());
        }
    }

    /// Drops a term line and numbers the terms after it anew; who names it names the one before.
    fn drop_terms(&mut self) {
        for at in (0..self.lines().len()).rev() {
            let mut lines = self.lines();
            if !is_term(&lines[at]) {
                continue;
            }
            let number = lines[..at].iter().filter(|line| is_term(line)).count();
            lines.remove(at);
            for line in &mut lines[at..] {
                *line = renumbered(line, number);
            }
            self.take(lines.concat());
        }
    }

    /// Puts a `leaf` in the place of a term line.
    fn plain_terms(&mut self) {
        for at in (0..self.lines().len()).rev() {
            let mut lines = self.lines();
            if is_term(&lines[at]) {
                lines[at] = b"leaf\n".to_vec();
                self.take(lines.concat());
            }
        }
    }

    fn drop_fields(&mut self) {
        for at in (0..self.lines().len()).rev() {
            for field in (0..fields(&self.lines()[at]).len()).rev() {
                let mut lines = self.lines();
                let mut rest = fields(&lines[at]);
                rest.remove(field);
                lines[at] = joined(&rest);
                self.take(lines.concat());
            }
        }
    }

    /// Spells each name with one letter or two, everywhere.
    fn short_names(&mut self) {
        let names: BTreeSet<Line> = self
            .lines()
            .iter()
            .flat_map(|line| fields(line).into_iter().skip(1))
            .filter(|field| field.len() > 1)
            .collect();
        let letters = || b'a'..=b'z';
        let mut shorter = letters().map(|one| vec![one]).chain(letters().map(|two| vec![b'n', two]));
        for name in names {
            let Some(short) = shorter.next() else { return };
            let renamed = |line: &Line| {
                let renamed = |field: Line| if field == name { short.clone() } else { field };
                joined(&fields(line).into_iter().map(renamed).collect::<Vec<_>>())
            };
            let lines: Vec<Line> = self.lines().iter().map(renamed).collect();
            self.take(lines.concat());
        }
    }
}

/// The fields of a line; the last has no newline.
fn fields(line: &[u8]) -> Vec<Line> {
    let line = line.strip_suffix(b"\n").unwrap_or(line);
    line.split(|&byte| byte == b',').map(<[u8]>::to_vec).collect()
}

fn joined(fields: &[Line]) -> Line {
    let mut line = fields.join(&b',');
    line.push(b'\n');
    line
}

fn is_term(line: &[u8]) -> bool {
    matches!(fields(line)[0].as_slice(), b"free" | b"leaf" | b"call" | b"op" | b"all" | b"some" | b"let" | b"label")
}

/// A line in which the terms above a number are numbered one lower, and the term itself too.
fn renumbered(line: &[u8], number: usize) -> Line {
    let mut fields = fields(line);
    for at in references(&fields) {
        let term = std::str::from_utf8(&fields[at]).ok().and_then(|text| text.parse::<usize>().ok());
        if let Some(term) = term.filter(|&term| term >= number) {
            fields[at] = term.saturating_sub(1).to_string().into_bytes();
        }
    }
    joined(&fields)
}

/// Which fields of a line are term numbers.
fn references(fields: &[Line]) -> Vec<usize> {
    let count = fields.len();
    match fields[0].as_slice() {
        b"call" | b"op" => (2..count).collect(),
        b"let" | b"label" => (1..count).collect(),
        b"all" | b"some" => {
            let mut found = vec![1];
            let mut at = 3;
            while at < count {
                let terms = std::str::from_utf8(&fields[at]).ok().and_then(|text| text.parse().ok()).unwrap_or(0);
                found.extend(at + 1..(at + 1 + terms).min(count));
                at += 1 + terms;
            }
            found.retain(|&at| at < count);
            found
        }
        // In the newer form the group stands before the term.
        b"assume" if count > 4 => vec![4],
        b"assume" | b"root" if count > 3 => vec![3],
        b"def" if count > 2 => vec![2],
        _ => Vec::new(),
    }
}

#[cfg(test)]
mod tests {
    use super::*;
    use compare::export::export;
    use compare::filter_file;

    #[test]
    fn a_long_file_becomes_short() {
        let fails = |file: &[u8]| filter_file(file).lists().iter().any(|list| list.rounds > 2);
        let file = export(1, 20_000);
        assert!(fails(&file));
        let small = shrink(&file, fails);
        assert!(fails(&small));
        assert!(small.len() < 150, "{}", String::from_utf8_lossy(&small));
    }

    #[test]
    fn raw_bytes_become_short() {
        let fails = |file: &[u8]| file.contains(&0x80) && file.contains(&b'\n');
        let file: Vec<u8> = (0..=255).cycle().take(2_000).collect();
        assert_eq!(shrink(&file, fails).len(), 2);
    }

    #[test]
    fn terms_are_numbered_anew() {
        for (line, renumbered_line) in [
            ("all,7,2,1,3,2,4,5\n", "all,6,2,1,3,2,3,4\n"),
            ("call,4,4,9\n", "call,4,3,8\n"),
            ("assume,5,1,5\n", "assume,5,1,4\n"),
            ("assume,5,1,5,5\n", "assume,5,1,5,4\n"),
            ("root,9,r,3\n", "root,9,r,3\n"),
            ("def,g,4\n", "def,g,3\n"),
            ("let,5,1\n", "let,4,1\n"),
            ("retain,9\n", "retain,9\n"),
        ] {
            assert_eq!(String::from_utf8(renumbered(line.as_bytes(), 4)).unwrap(), renumbered_line);
        }
    }
}
