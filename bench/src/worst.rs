//! Looks for the file on which the library takes longest.
//!
//! A file is made from a shape: a chain of terms, a wide term, and records that name them. From random shapes the search
//! goes on to better ones, a number or two changed at a time.

use std::time::{Duration, Instant};

use compare::limits;
use compare::random::Random;
use compare::text::{TermId, Text};
use compare::Command;

use crate::sides::Library;

/// What a file is made from, each a number below its bound in [`BOUNDS`].
#[derive(Clone, Copy, Debug, PartialEq, Eq)]
pub struct Shape([usize; NUMBERS]);

/// How many numbers make a shape.
const NUMBERS: usize = 11;

/// The name at the bottom: one that counts, one that does not, one that is no name.
const BOTTOM: usize = 0;
/// Terms of the chain, what each is, and its further references.
const CHAIN: usize = 1;
const LINK: usize = 2;
const MORE: usize = 3;
/// Whether these go to the term before or to the bottom.
const MORE_BEFORE: usize = 4;
/// References of the wide term, and what it is.
const WIDE: usize = 5;
const WIDE_SORT: usize = 6;
/// Whether they go to the end of the chain or to the bottom.
const WIDE_END: usize = 7;
/// What a fact is, the groups of one that has groups, and how many of the records are facts, in hundredths.
const FACT: usize = 8;
const GROUPS: usize = 9;
const FACTS: usize = 10;

const BOUNDS: [usize; NUMBERS] = [3, limits::TERMS, 5, 6, 2, limits::REFERENCES, 4, 2, 7, 2_049, 101];

impl Shape {
    fn random(random: &mut Random) -> Self {
        Shape(BOUNDS.map(|bound| random.below(bound)))
    }

    /// A shape near this one: up to three numbers are others, or a little more or less.
    fn near(mut self, random: &mut Random) -> Self {
        for _ in 0..random.within(1..=3) {
            let index = random.below(BOUNDS.len());
            let (bound, step) = (BOUNDS[index], BOUNDS[index] / 16 + 1);
            self.0[index] = match random.below(3) {
                0 => random.below(bound),
                1 => (self.0[index] + random.within(1..=step)).min(bound - 1),
                _ => self.0[index].saturating_sub(random.within(1..=step)),
            };
        }
        self
    }

    /// The file, as far as the bytes reach.
    pub fn file(&self) -> Vec<u8> {
        let Shape(number) = self;
        let mut text = Text::ask(0, 4);
        let bottom = match number[BOTTOM] {
            0 => text.free("p"),
            1 => text.free("Valid"),
            _ => text.leaf(),
        };
        let mut end = bottom;
        for _ in 0..number[CHAIN] {
            let mut parts = vec![end];
            parts.resize(1 + number[MORE], if number[MORE_BEFORE] == 1 { end } else { bottom });
            end = link(&mut text, number[LINK], &parts);
        }
        let parts = vec![if number[WIDE_END] == 1 { end } else { bottom }; number[WIDE]];
        let wide = match number[WIDE_SORT] {
            0 => text.op("and", &parts),
            1 => text.op("other", &parts),
            2 => text.bind(end, &parts),
            _ => text.all(end, &[parts]),
        };
        let fact = fact(&mut text, number[FACT], number[GROUPS], end, wide);
        for index in 0..limits::RECORDS {
            if index % 100 < number[FACTS] {
                let start = if number[FACT] == 1 { "assumption_" } else { "" };
                text.assume(format!("{start}{index:x}"), 0, fact);
            } else {
                text.root(0, "r", wide);
            }
        }
        let mut file = text.finish();
        if file.len() > limits::BYTES {
            file.truncate(limits::BYTES);
            let line = file.iter().rposition(|&byte| byte == b'\n').map_or(0, |place| place + 1);
            file.truncate(line);
        }
        file
    }
}

/// A term of the chain.
fn link(text: &mut Text, sort: usize, parts: &[TermId]) -> TermId {
    match sort {
        0 => text.bind(parts[0], &parts[1..]),
        1 => text.label(parts[0]),
        2 => text.call("f", parts),
        3 => text.op("and", parts),
        _ => text.all(parts[0], &[parts[1..].to_vec()]),
    }
}

/// The term of every fact, by what the rules make of it.
fn fact(text: &mut Text, sort: usize, groups: usize, end: TermId, wide: TermId) -> TermId {
    match sort {
        0 | 1 => wide,
        2 => text.op("eq", &[wide, wide]),
        3 => text.op("iff", &[wide, end]),
        4 => text.all(wide, &vec![vec![wide]; groups]),
        5 => {
            let payload = text.all(wide, &[vec![wide]]);
            let squash = text.call("Prims.squash", &[end, payload]);
            text.call("HasType", &[end, squash])
        }
        _ => {
            let part = text.all(end, &vec![vec![wide]; groups]);
            text.op("and", &[part, wide])
        }
    }
}

/// Shapes that the search starts from, and how often it goes on without a better one.
const STARTS: usize = 200;
const PATIENCE: usize = 300;

/// The worst shape that is found from a seed within some time, and its file.
pub fn search(seed: u64, within: Duration) -> (Shape, Vec<u8>) {
    let (mut random, mut library, start) = (Random::new(seed), Library::new(), Instant::now());
    let mut worst = (Duration::ZERO, Shape([0; NUMBERS]));
    while start.elapsed() < within {
        let mut here = (Duration::ZERO, Shape([0; NUMBERS]));
        for _ in 0..STARTS {
            let shape = Shape::random(&mut random);
            here = larger(here, (time(&mut library, &shape.file()), shape));
        }
        let mut tries = 0;
        while tries < PATIENCE && start.elapsed() < within {
            let shape = here.1.near(&mut random);
            let time = time(&mut library, &shape.file());
            tries = if time > here.0 { 0 } else { tries + 1 };
            here = larger(here, (time, shape));
        }
        eprintln!("{:.1} ms: {:?}", here.0.as_secs_f64() * 1e3, here.1);
        worst = larger(worst, here);
    }
    (worst.1, worst.1.file())
}

fn larger(left: (Duration, Shape), right: (Duration, Shape)) -> (Duration, Shape) {
    if right.0 > left.0 {
        right
    } else {
        left
    }
}

/// The shorter time of two calls.
fn time(library: &mut Library, file: &[u8]) -> Duration {
    let mut once = || {
        let start = Instant::now();
        let _ = library.call(Command::List, file);
        start.elapsed()
    };
    once().min(once())
}

#[cfg(test)]
mod tests {
    use super::*;

    #[test]
    fn a_file_is_as_long_as_one_may_be() {
        let mut random = Random::new(1);
        for _ in 0..100 {
            let file = Shape::random(&mut random).file();
            assert!(file.len() <= limits::BYTES && file.ends_with(b"\n"));
        }
    }

    #[test]
    fn a_near_shape_keeps_the_bounds() {
        let mut random = Random::new(2);
        let mut shape = Shape::random(&mut random);
        for _ in 0..1_000 {
            shape = shape.near(&mut random);
            assert!(shape.0.iter().zip(BOUNDS).all(|(&number, bound)| number < bound));
        }
    }
}
