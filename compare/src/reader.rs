//! A file read line by line, each line checked as it comes.

use std::collections::{HashMap, HashSet};

use crate::fields::{Fault, Fields};
use crate::limits;
use crate::names::{NameId, NameSet, Names};
use crate::rules::{self, Kind};
use crate::terms::{Op, Term, Terms};
use crate::Refusal;

/// A fact: an `assume` line and its summary.
pub struct Fact {
    pub line: u32,
    pub name: NameId,
    pub pretyping: bool,
    /// Its group; 0 in the older form.
    pub group: u32,
    pub free: NameSet,
    pub kind: Kind,
}

/// A `def` or a `fun` line.
pub struct Declaration {
    pub line: u32,
    pub is_fun: bool,
}

/// The form of a file: how its ask lines are spelled, and with it whether its facts have groups.
#[derive(Clone, Copy, Debug, PartialEq, Eq)]
pub enum Form {
    /// `ask`: no groups.
    Older,
    /// `ask2`: groups.
    Newer,
}

/// A position: an `ask` or `ask2` line, or an `also` line with the options and the groups of its ask.
#[derive(Clone)]
pub struct Ask {
    /// The queries of its chain so far, its own last. An ask line has one, an also line more.
    pub queries: Vec<u32>,
    pub no_ambients: bool,
    pub pretyping_axioms: bool,
    pub prune_decls: bool,
    pub follow_bodies: bool,
    /// The groups that are admitted, group k by bit k; all in the older form.
    pub groups: u32,
}

impl Ask {
    fn new(query: u32, options: u32, groups: u32) -> Self {
        let on = |option: u32| options & option != 0;
        let queries = vec![query];
        Ask { queries, no_ambients: on(1), pretyping_axioms: on(2), prune_decls: on(4), follow_bodies: on(8), groups }
    }

    /// Whether the group of a fact is admitted. A fact of another group is not there for this position.
    pub fn admits(&self, fact: &Fact) -> bool {
        self.groups >> fact.group & 1 == 1
    }

    /// The position that goes on from this one with a query.
    fn also(&self, query: u32) -> Self {
        let mut also = self.clone();
        also.queries.push(query);
        also
    }

    /// Whether it goes on from the position before.
    pub fn is_also(&self) -> bool {
        self.queries.len() > 1
    }

    /// The options number.
    pub fn options(&self) -> u32 {
        let options = [self.no_ambients, self.pretyping_axioms, self.prune_decls, self.follow_bodies];
        options.iter().rev().fold(0, |number, &on| 2 * number + u32::from(on))
    }
}

/// A `root` line.
pub struct Root {
    pub line: u32,
    pub name: NameId,
    pub query: u32,
    pub free: NameSet,
}

/// What an accepted file says.
#[derive(Default)]
pub struct Background<'a> {
    /// That of the first line; none before it is read.
    pub form: Option<Form>,
    /// The ask and also lines in their order, the first an ask line.
    pub asks: Vec<Ask>,
    pub names: Names<'a>,
    pub terms: Terms,
    /// In the order of their lines.
    pub facts: Vec<Fact>,
    /// By name.
    pub declarations: HashMap<NameId, Declaration>,
    /// The free names of each `def`.
    pub macros: HashMap<NameId, NameSet>,
    /// In the order of their lines.
    pub roots: Vec<Root>,
}

/// Reads a file, or says which line is refused.
pub fn read(file: &[u8]) -> Result<Background<'_>, Refusal> {
    if file.len() > limits::BYTES {
        return Err(Refusal { number: 9, place: 0 });
    }
    let mut reader = Reader::default();
    let mut rest = file;
    let mut number = 1;
    loop {
        let read = match rest.iter().position(|&byte| byte == b'\n') {
            Some(end) => {
                let line = &rest[..end];
                rest = &rest[end + 1..];
                reader.line(number, line)
            }
            None => Err(Fault::Form),
        };
        if let Err(fault) = read {
            return Err(Refusal { number: fault as u32, place: number });
        }
        if rest.is_empty() {
            return Ok(reader.background);
        }
        number += 1;
    }
}

/// The kind of the line before, as far as it says what may follow.
#[derive(Clone, Copy, Default, PartialEq, Eq)]
enum Before {
    /// There is no line before.
    #[default]
    Nothing,
    /// An ask or also line.
    Ask,
    Hide,
    Other,
}

#[derive(Default)]
struct Reader<'a> {
    background: Background<'a>,
    before: Before,
    /// The names of the assume, fun and def lines.
    taken: HashSet<NameId>,
    records: usize,
    entries: usize,
    uses: usize,
}

impl<'a> Reader<'a> {
    fn line(&mut self, number: u32, line: &'a [u8]) -> Result<(), Fault> {
        let mut fields = Fields::new(line);
        let kind = fields.field()?;
        let (now, may_stand) = match kind {
            b"ask" => (Before::Ask, self.may_ask(Form::Older)),
            b"ask2" => (Before::Ask, self.may_ask(Form::Newer)),
            b"also" => (Before::Ask, self.before == Before::Ask),
            b"hide" => (Before::Hide, matches!(self.before, Before::Ask | Before::Hide)),
            _ => (Before::Other, self.before != Before::Nothing),
        };
        if !may_stand {
            return Err(Fault::Form);
        }
        self.before = now;
        match kind {
            b"ask" => self.ask(Form::Older, fields),
            b"ask2" => self.ask(Form::Newer, fields),
            b"also" => self.also(fields),
            b"hide" => self.hide(fields),
            b"free" | b"leaf" | b"call" | b"op" | b"all" | b"some" | b"let" | b"label" => {
                let term = self.term(kind, fields)?;
                self.add_term(term)
            }
            b"assume" => self.assume(number, fields),
            b"fun" => self.fun(number, fields),
            b"def" => self.def(number, fields),
            b"retain" => self.retain(fields),
            b"root" => self.root(number, fields),
            _ => Err(Fault::Form),
        }
    }

    /// Whether an ask line of a form may stand here: only one of the file's form may, whatever its place.
    fn may_ask(&self, form: Form) -> bool {
        matches!(self.before, Before::Nothing | Before::Ask) && self.background.form.unwrap_or(form) == form
    }

    fn ask(&mut self, form: Form, mut fields: Fields<'a>) -> Result<(), Fault> {
        self.one_position_more()?;
        self.background.form = Some(form);
        fields.exactly(if form == Form::Newer { 3 } else { 2 })?;
        let query = fields.number(limits::QUERY)?;
        let options = fields.number(limits::OPTIONS)?;
        let groups = if form == Form::Newer { fields.number(limits::GROUPS)? } else { limits::GROUPS };
        self.background.asks.push(Ask::new(query, options, groups));
        Ok(())
    }

    /// Goes on from the line before, which is an ask or also line.
    fn also(&mut self, mut fields: Fields<'a>) -> Result<(), Fault> {
        self.one_position_more()?;
        fields.exactly(1)?;
        let query = fields.number(limits::QUERY)?;
        let position = self.background.asks.last().ok_or(Fault::Form)?.also(query);
        self.background.asks.push(position);
        Ok(())
    }

    /// One ask or also line too many is found before its fields are looked at.
    fn one_position_more(&self) -> Result<(), Fault> {
        within(self.background.asks.len() + 1, limits::ASKS, Fault::FullAsks)
    }

    /// A record line that hides its name and does not take it.
    fn hide(&mut self, mut fields: Fields<'a>) -> Result<(), Fault> {
        fields.exactly(1)?;
        let name = self.name(&mut fields)?;
        self.add_record()?;
        self.background.names.hide(name);
        Ok(())
    }

    fn name(&mut self, fields: &mut Fields<'a>) -> Result<NameId, Fault> {
        Ok(self.background.names.number(fields.name()?))
    }

    fn term(&mut self, kind: &[u8], mut fields: Fields<'a>) -> Result<Term, Fault> {
        let count = self.background.terms.len();
        match kind {
            b"free" => {
                fields.exactly(1)?;
                Ok(Term::Free(self.name(&mut fields)?))
            }
            b"leaf" => {
                fields.end()?;
                Ok(Term::Leaf)
            }
            b"call" => Ok(Term::Call(self.name(&mut fields)?, fields.terms(count)?)),
            b"op" => Ok(Term::Op(op(fields.field()?)?, fields.terms(count)?)),
            b"let" => Ok(Term::Let { body: fields.term(count)?, bound: fields.terms(count)? }),
            b"label" => {
                fields.exactly(1)?;
                Ok(Term::Label(fields.term(count)?))
            }
            // `all` and `some`
            _ => {
                let body = fields.term(count)?;
                let groups = pattern_groups(&mut fields, count)?;
                fields.end()?;
                Ok(if kind == b"all" { Term::All { body, groups } } else { Term::Some { body, groups } })
            }
        }
    }

    fn add_term(&mut self, term: Term) -> Result<(), Fault> {
        self.check_names()?;
        let Background { names, terms, .. } = &mut self.background;
        if terms.len() < limits::TERMS && terms.add(term, names, limits::REFERENCES) {
            Ok(())
        } else {
            Err(Fault::FullTerms)
        }
    }

    fn assume(&mut self, line: u32, mut fields: Fields<'a>) -> Result<(), Fault> {
        let has_group = self.background.form == Some(Form::Newer);
        fields.exactly(if has_group { 4 } else { 3 })?;
        let name = self.name(&mut fields)?;
        let pretyping = fields.number(1)? == 1;
        let group = if has_group { fields.number(limits::GROUP)? } else { 0 };
        let term = fields.term(self.background.terms.len())?;
        self.take(name)?;

        // A trimmed token is a name of this line, so the fact is summarised before the limits are judged.
        let Background { names, terms, .. } = &mut self.background;
        let room = limits::ENTRIES - self.entries;
        let kind = rules::summarize(names.bytes(name), term, terms, names, room);
        self.add_record()?;
        let kind = kind.ok_or(Fault::FullTriggers)?;
        self.entries += kind.entries();
        let free = self.add_uses(term)?;
        self.background.facts.push(Fact { line, name, pretyping, group, free, kind });
        Ok(())
    }

    fn fun(&mut self, line: u32, mut fields: Fields<'a>) -> Result<(), Fault> {
        fields.exactly(1)?;
        let name = self.name(&mut fields)?;
        self.take(name)?;
        self.add_record()?;
        self.background.declarations.insert(name, Declaration { line, is_fun: true });
        Ok(())
    }

    fn def(&mut self, line: u32, mut fields: Fields<'a>) -> Result<(), Fault> {
        fields.exactly(2)?;
        let name = self.name(&mut fields)?;
        let term = fields.term(self.background.terms.len())?;
        self.take(name)?;
        self.add_record()?;
        let free = self.add_uses(term)?;
        self.background.declarations.insert(name, Declaration { line, is_fun: false });
        self.background.macros.insert(name, free);
        Ok(())
    }

    fn retain(&mut self, mut fields: Fields<'a>) -> Result<(), Fault> {
        while !fields.is_done() {
            self.name(&mut fields)?;
        }
        self.add_record()
    }

    fn root(&mut self, line: u32, mut fields: Fields<'a>) -> Result<(), Fault> {
        fields.exactly(3)?;
        let query = fields.number(limits::QUERY)?;
        let name = self.name(&mut fields)?;
        let term = fields.term(self.background.terms.len())?;
        self.add_record()?;
        let free = self.add_uses(term)?;
        self.background.roots.push(Root { line, name, query, free });
        Ok(())
    }

    /// Takes the name of an assume, fun or def line.
    fn take(&mut self, name: NameId) -> Result<(), Fault> {
        if self.taken.insert(name) {
            Ok(())
        } else {
            Err(Fault::Repeat)
        }
    }

    /// Counts a record line all of whose names have been counted. Names have the lower number.
    fn add_record(&mut self) -> Result<(), Fault> {
        self.records += 1;
        self.check_names()?;
        within(self.records, limits::RECORDS, Fault::FullRecords)
    }

    /// The free names of a record's term, each counted as a use.
    fn add_uses(&mut self, term: usize) -> Result<NameSet, Fault> {
        let free = self.background.terms.free_names(term);
        self.uses += free.len();
        within(self.uses, limits::USES, Fault::FullTriggers)?;
        Ok(free.clone())
    }

    fn check_names(&self) -> Result<(), Fault> {
        within(self.background.names.len(), limits::NAMES, Fault::FullNames)
    }
}

/// Checks a count against its limit.
fn within(count: usize, limit: usize, full: Fault) -> Result<(), Fault> {
    if count <= limit {
        Ok(())
    } else {
        Err(full)
    }
}

fn op(word: &[u8]) -> Result<Op, Fault> {
    match word {
        b"true" => Ok(Op::True),
        b"iff" => Ok(Op::Iff),
        b"eq" => Ok(Op::Eq),
        b"and" => Ok(Op::And),
        b"other" => Ok(Op::Other),
        _ => Err(Fault::Form),
    }
}

/// The pattern groups of a quantifier: how many, and for each a count and that many terms.
fn pattern_groups(fields: &mut Fields, count: usize) -> Result<Vec<Vec<usize>>, Fault> {
    let mut groups = Vec::new();
    for _ in 0..fields.number(limits::NUMBER)? {
        let mut group = Vec::new();
        for _ in 0..fields.number(limits::NUMBER)? {
            group.push(fields.term(count)?);
        }
        groups.push(group);
    }
    Ok(groups)
}
