//! Why each reached fact came along: who supplied its listed names.

use std::fmt;

use crate::names::{NameId, NameSet};
use crate::reader::{Ask, Background, Fact};
use crate::scanned::{is_retainable, is_satisfied, listed, Item, Scanner};
use crate::{text, Row};

/// The reasons of one ask or also line.
#[derive(Clone, Debug, PartialEq, Eq)]
pub struct Reasons<'a> {
    /// By fact name, then by listed name, both in byte order.
    pub rows: Vec<Reason<'a>>,
    /// How many of the numbered names are met.
    pub met: u32,
}

/// A row: the fact's line, the number of a listed name, and the line of the item that supplied it; with their names.
#[derive(Clone, Copy, Debug, PartialEq, Eq)]
pub struct Reason<'a> {
    pub row: Row,
    pub fact: &'a [u8],
    pub name: &'a [u8],
    pub item: &'a [u8],
}

/// A reached fact, and the names met by the end of the round that first triggered it.
struct Reached<'b> {
    fact: &'b Fact,
    met: NameSet,
}

/// The reasons at a position. On an also line they are those of a fresh run over all queries of its chain.
pub fn reasons<'a>(background: &Background<'a>, ask: &Ask) -> Reasons<'a> {
    let (scanner, names) = (Scanner::new(background), &background.names);
    // What is scanned, by the round that brought it: the roots have round 0.
    let mut rounds: Vec<Vec<Item>> = vec![scanner.start(background, ask)];
    let mut reached: Vec<Reached> = Vec::new();
    let mut met = NameSet::empty();
    loop {
        let before = met.clone();
        rounds[rounds.len() - 1].iter().for_each(|item| met.add_all(&item.names));
        let is_new = |name: NameId| met.contains(name) && !before.contains(name);
        let is_triggered = |fact: &&Fact| ask.admits(fact) && listed(fact).any(is_new) && is_satisfied(fact, &met);
        let triggered: Vec<&Fact> = background.facts.iter().filter(is_triggered).collect();
        if triggered.is_empty() {
            break;
        }
        let is_reached = |fact: &Fact| reached.iter().any(|other| other.fact.line == fact.line);
        let added = triggered.into_iter().filter(|fact| is_retainable(ask, fact) && !is_reached(fact));
        let added: Vec<&Fact> = added.collect();
        rounds.push(added.iter().map(|fact| scanner.fact(fact)).collect());
        reached.extend(added.into_iter().map(|fact| Reached { fact, met: met.clone() }));
    }

    reached.sort_by_key(|reached| names.bytes(reached.fact.name));
    let mut rows = Vec::new();
    for Reached { fact, met } in &reached {
        let mut listed: Vec<NameId> = names.in_byte_order(listed(fact).filter(|&name| met.contains(name)));
        listed.dedup();
        for number in listed {
            let Some(item) = supplier(&rounds, number) else { continue };
            let row = Row { line: fact.line, number: number as u32, cause: item.line };
            let [fact, name, item] = [fact.name, number, item.name].map(|name| names.bytes(name));
            rows.push(Reason { row, fact, name, item });
        }
    }
    Reasons { rows, met: met.len() as u32 }
}

/// The item that a name is met from: of the lowest round, then of the lowest line.
fn supplier(rounds: &[Vec<Item>], name: NameId) -> Option<&Item> {
    rounds.iter().find_map(|items| items.iter().filter(|item| item.names.contains(name)).min_by_key(|item| item.line))
}

/// The reasons as `factfilter why` prints them.
impl fmt::Display for Reasons<'_> {
    fn fmt(&self, out: &mut fmt::Formatter) -> fmt::Result {
        for Reason { row, fact, name, item } in &self.rows {
            writeln!(out, "{row},{},{},{}", text(fact), text(name), text(item))?;
        }
        writeln!(out, "met,{}\nrows,{}", self.met, self.rows.len())
    }
}
