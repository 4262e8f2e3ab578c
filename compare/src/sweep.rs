//! The second engine: passes over all facts until one adds none.

use std::collections::HashSet;
use std::fmt;

use crate::names::NameSet;
use crate::prune::records;
use crate::reader::{Ask, Background};
use crate::scanned::{fires, is_retainable, Scanner};
use crate::{text, Order};

/// What one ask or also line keeps by the second engine.
#[derive(Clone, Debug, PartialEq, Eq)]
pub struct Swept<'a> {
    /// The kept lines in order.
    pub lines: Vec<u32>,
    /// The name of each, a part of the file.
    pub names: Vec<&'a [u8]>,
    /// How many passes there were, the last one counted; of an also line those of a fresh run over its chain.
    pub passes: u32,
}

/// What a position keeps.
pub fn sweep<'a>(background: &Background<'a>, ask: &Ask, order: Order) -> Swept<'a> {
    let (reached, passes) = passes(background, ask);
    let kept = records(background, ask, &reached, order);
    let (lines, names) = kept.iter().map(|&(line, name)| (line, background.names.bytes(name))).unzip();
    Swept { lines, names, passes }
}

/// The reached facts, and the passes that it takes. The names of an added fact are met at once.
fn passes(background: &Background, ask: &Ask) -> (HashSet<usize>, u32) {
    let scanner = Scanner::new(background);
    let mut met = NameSet::empty();
    scanner.start(background, ask).iter().for_each(|item| met.add_all(&item.names));
    let (mut reached, mut passes) = (HashSet::new(), 0);
    loop {
        let before = reached.len();
        for (index, fact) in background.facts.iter().enumerate() {
            if !reached.contains(&index) && is_retainable(ask, fact) && fires(fact, &met) {
                reached.insert(index);
                met.add_all(&scanner.fact(fact).names);
            }
        }
        passes += 1;
        if reached.len() == before {
            return (reached, passes);
        }
    }
}

/// The list as `factfilter sweep` prints it.
impl fmt::Display for Swept<'_> {
    fn fmt(&self, out: &mut fmt::Formatter) -> fmt::Result {
        let Swept { lines, names, passes } = self;
        for (line, name) in lines.iter().zip(names) {
            writeln!(out, "kept,{line},{}", text(name))?;
        }
        writeln!(out, "pass,{},{passes}", lines.len())
    }
}
