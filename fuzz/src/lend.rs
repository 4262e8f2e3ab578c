//! Slices with odd lengths and dirty contents, and what they must hold after a call.

use compare::limits::WORK_WORDS;
use compare::random::Random;
use compare::LONG_ENOUGH;

use crate::Lengths;

/// Words before and after each slice, which no call may touch.
const GUARD: usize = 8;

/// Words of dirt: more than any slice, so that a slice starts anywhere in it.
const DIRT: usize = 2 * WORK_WORDS;

/// Lends six working slices and a result slice, or a table of rows, over and over.
pub struct Lender {
    dirt: Vec<u32>,
    random: Random,
    lent: [Lent; 7],
}

/// A slice: where in the dirt its first contents start, and its words between two guards.
#[derive(Clone, Default)]
struct Lent {
    from: usize,
    words: Vec<u32>,
}

impl Lent {
    fn fill(&mut self, dirt: &[u32], from: usize, length: usize) {
        self.from = from;
        self.words.clear();
        self.words.extend_from_slice(&dirt[from..from + length + 2 * GUARD]);
    }

    fn slice(&mut self) -> &mut [u32] {
        let end = self.words.len() - GUARD;
        &mut self.words[GUARD..end]
    }

    /// The first word that is wrong: `start` has to stand at the slice's start, and what it held before after that.
    fn fault(&self, dirt: &[u32], start: &[u32]) -> Option<String> {
        let before = &dirt[self.from..][..self.words.len()];
        let (guard, words) = self.words.split_at(GUARD);
        let (written, rest) = words.split_at(start.len());
        if guard != &before[..GUARD] {
            Some("a word before the slice is touched".to_owned())
        } else if let Some(index) = first_other(written, start) {
            Some(format!("word {index} is {}, not {}", written[index], start[index]))
        } else {
            let index = first_other(rest, &before[GUARD + start.len()..])?;
            Some(format!("word {} of {} is touched", start.len() + index, words.len() - GUARD))
        }
    }
}

/// Where two slices of one length differ first.
fn first_other(left: &[u32], right: &[u32]) -> Option<usize> {
    if left == right {
        return None;
    }
    left.iter().zip(right).position(|(left, right)| left != right)
}

impl Lender {
    /// The same seed gives the same dirt.
    pub fn new(seed: u64) -> Self {
        let mut random = Random::new(seed);
        let dirt = (0..DIRT + 4 * WORK_WORDS)
            .map(|_| match random.below(8) {
                0 => u32::MAX,
                1 => 0,
                2..=4 => random.below(5_000) as u32,
                _ => random.bits() as u32,
            })
            .collect();
        Lender { dirt, random, lent: Default::default() }
    }

    /// Makes slices of these lengths ready, all dirty.
    pub fn lend(&mut self, lengths: Lengths) {
        for (lent, length) in self.lent.iter_mut().zip(lengths.works.into_iter().chain([lengths.room])) {
            lent.fill(&self.dirt, self.random.below(DIRT), length);
        }
    }

    /// The slices that are lent.
    pub fn slices(&mut self) -> ([&mut [u32]; 6], &mut [u32]) {
        let [w0, w1, w2, w3, w4, w5, result] = self.lent.each_mut().map(Lent::slice);
        ([w0, w1, w2, w3, w4, w5], result)
    }

    /// What is wrong with the slices after a call with this list, or with rows of these words, if anything is.
    pub fn fault(&self, lines: &[u32], untouched: bool) -> Option<String> {
        let [working @ .., result] = &self.lent;
        let cleared: &[u32] = if untouched { &[] } else { &[0; WORK_WORDS] };
        for (index, lent) in working.iter().enumerate() {
            if let Some(fault) = lent.fault(&self.dirt, cleared) {
                return Some(format!("working slice {index}: {fault}"));
            }
        }
        result.fault(&self.dirt, lines).map(|fault| format!("result slice or table: {fault}"))
    }
}

/// The dirt is long enough for every slice that is lent.
const _: () = assert!(LONG_ENOUGH[0] + 2 * GUARD + 100 < 4 * WORK_WORDS);
