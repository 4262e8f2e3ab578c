//! Random files from a seed: well-formed ones, damaged ones, raw bytes, and files near a limit or near several.

use std::collections::HashSet;

use crate::case::Case;
use crate::edges;
use crate::forms;
use crate::limits;
use crate::random::Random;
use crate::reader::Form;
use crate::several;
use crate::terms::TermId;
use crate::text::{Position, Text};
use crate::{filter_file, LONG_ENOUGH};

/// Names with a meaning of their own.
const SPECIAL: [&str; 29] = [
    "SFuel",
    "ZFuel",
    "HasType",
    "HasTypeZ",
    "HasTypeFuel",
    "Valid",
    "ApplyTT",
    "ApplyTF",
    "Prims.lex_t",
    "Prims.squash",
    "Prims.hasEq",
    "Tm_refine_1",
    "Tm_refine_",
    "__uu__PartialApp",
    "@tok",
    "f@tok",
    "IsTotFun",
    "is-Tm_arrow",
    "Term_constr_id",
    "is-BoxBool",
    "BoxBool",
    "is-BoxInt",
    "BoxInt",
    "is-BoxString",
    "BoxString",
    "is-BoxReal",
    "BoxReal",
    "is-BoxProp",
    "BoxProp",
];

/// Starts of fact names that the rules ask for, and near misses.
const PREFIXES: [&str; 6] = ["assumption_", "equation_", "l_quant_interp", "assumption", "l_quant_inter", "Equation_"];

/// Starts of plain names: some are prefixes of others, some are at the ends of the range of bytes.
const STEMS: [&str; 12] = ["p", "q", "pq", "f", "g", "Prims.op_Equals", "T", "~", "!", "\"", "a-b", "f@"];

/// So many cases of a seed.
pub fn cases(seed: u64, count: usize) -> impl Iterator<Item = Case> {
    (0..count as u64).map(move |index| case(seed, index))
}

/// The case of a seed at an index.
pub fn case(seed: u64, index: u64) -> Case {
    let mut random = Random::new(Random::new(seed).after(index).bits());
    let case = any(&mut random);
    Case { name: format!("{seed}-{index}-{}", case.name), ..case }
}

fn any(random: &mut Random) -> Case {
    match random.below(100) {
        0..=49 => Case::new("formed", formed(random)),
        50..=77 => Case::new("damaged", damaged(random)),
        78..=85 => Case::new("raw", raw(random)),
        86..=88 => Case::new("near", near_a_limit(random)),
        89 => {
            let file = several::nearly_full(random);
            Case::new("full", in_some_form(file, random))
        }
        _ => lent(random),
    }
}

/// Options: often with 4 and 8 together.
fn options(random: &mut Random) -> u32 {
    let most = limits::OPTIONS as usize;
    (if random.chance(30) { random.within(12..=most) } else { random.within(0..=most) }) as u32
}

/// Ask and also lines: mostly one, often a few whose queries may repeat, now and then as many as there may be or too many.
/// Some files have no chains, some have one, some have several of any lengths.
fn positions(random: &mut Random) -> Vec<Position> {
    let count = match random.below(100) {
        0..=59 => 1,
        60..=86 => random.within(2..=4),
        87..=94 => random.within(5..=limits::ASKS - 1),
        95..=97 => limits::ASKS,
        _ => random.within(limits::ASKS + 1..=limits::ASKS + 2),
    };
    let (also, queries) = (random.pick(&[0, 0, 50, 80, 100]), random.pick(&[3, 8]));
    let mut positions: Vec<Position> = Vec::new();
    for _ in 0..count {
        let query = match positions.last() {
            Some(position) if random.chance(20) => position.query(),
            Some(_) if random.chance(10) => random.pick(&positions).query(),
            _ if random.chance(90) => random.below(queries) as u32,
            _ => random.below(256) as u32,
        };
        let is_also = !positions.is_empty() && random.chance(also);
        positions.push(if is_also { Position::Also(query) } else { Position::Ask(query, options(random)) });
    }
    positions
}

/// An ask line, mostly of this form, or an also line.
fn position(form: Form, random: &mut Random) -> Position {
    let query = random.below(3) as u32;
    match (random.below(100), form) {
        (0..=49, _) => Position::Also(query),
        (50..=94, Form::Newer) | (95.., Form::Older) => Position::Ask2(query, options(random), groups(random)),
        _ => Position::Ask(query, options(random)),
    }
}

/// The groups of an ask: none, all, one, all but one, or any.
fn groups(random: &mut Random) -> u32 {
    let one = 1 << random.below(16);
    match random.below(10) {
        0 => 0,
        1..=3 => limits::GROUPS,
        4 => one,
        5..=6 => limits::GROUPS - one,
        7 => random.below(16) as u32,
        _ => random.bits() as u32 & limits::GROUPS,
    }
}

/// A file of the older form, as it is or in the newer one. There the facts are of all groups or of a few.
fn in_some_form(file: Vec<u8>, random: &mut Random) -> Vec<u8> {
    if random.chance(55) {
        return file;
    }
    let few = [random.below(16) as u32, random.below(4) as u32, random.below(2) as u32];
    let (all, mut asked) = (random.chance(40), Random::new(random.bits()));
    let group = || if all { random.below(16) as u32 } else { random.pick(&few) };
    forms::newer(&file, || groups(&mut asked), group)
}

/// The form of a file by its first bytes.
fn form(file: &[u8]) -> Form {
    if file.starts_with(b"ask2") {
        Form::Newer
    } else {
        Form::Older
    }
}

/// A well-formed file.
pub fn formed(random: &mut Random) -> Vec<u8> {
    let steps = match random.below(10) {
        0..=5 => random.within(0..=20),
        6..=8 => random.within(20..=120),
        _ => random.within(200..=1_000),
    };
    let file = Grower::new(random).grow(steps).finish();
    in_some_form(file, random)
}

/// A small well-formed file.
fn small(random: &mut Random) -> Vec<u8> {
    let steps = random.within(1..=40);
    let file = Grower::new(random).grow(steps).finish();
    in_some_form(file, random)
}

/// A well-formed file of the older form that grows step by step.
struct Grower<'r> {
    random: &'r mut Random,
    text: Text,
    /// The queries of the ask and also lines.
    queries: Vec<u32>,
    /// The plain names to draw from.
    pool: Vec<String>,
    /// The names of the assume, fun and def lines.
    taken: HashSet<String>,
}

impl<'r> Grower<'r> {
    fn new(random: &'r mut Random) -> Self {
        let positions = positions(random);
        let pool: Vec<String> = (0..random.within(1..=60))
            .flat_map(|index| match random.pick(&STEMS) {
                // A token and the name that it trims to.
                stem if random.chance(10) => vec![format!("{stem}{index}@tok"), format!("{stem}{index}")],
                stem if random.chance(15) => vec![stem.to_owned()],
                stem => vec![format!("{stem}{index}")],
            })
            .collect();
        let queries = positions.iter().map(|position| position.query()).collect();
        let mut grower = Grower { random, text: Text::positions(&positions), queries, pool, taken: HashSet::new() };
        if grower.random.chance(40) {
            grower.hides();
        }
        grower
    }

    /// Hide lines: of names that terms use, which may repeat, and of names that stand nowhere else.
    fn hides(&mut self) {
        let most = if self.random.chance(90) { 4 } else { 40 };
        for _ in 0..self.random.within(1..=most) {
            let name = match self.random.below(10) {
                0 => format!("hidden{}", self.random.below(100)),
                1 => self.random.pick(&SPECIAL).to_owned(),
                _ => self.symbol(),
            };
            self.text.hide(name);
        }
    }

    fn grow(mut self, steps: usize) -> Text {
        for _ in 0..steps {
            if self.text.len() > 60_000 || self.text.terms() > limits::TERMS - 100 {
                break;
            }
            match self.random.below(100) {
                0..=49 => self.fact(),
                50..=57 => self.def(),
                58..=61 => self.bodies(),
                62..=69 => self.fun(),
                70..=73 => self.retain(),
                74..=89 => self.root(),
                90..=94 => self.chain(),
                _ => {
                    self.term();
                }
            }
        }
        self.text
    }

    fn symbol(&mut self) -> String {
        if self.random.chance(85) {
            self.random.pick(&self.pool)
        } else {
            self.random.pick(&SPECIAL).to_owned()
        }
    }

    /// A term that is there already, often a late one, or a new one.
    fn term(&mut self) -> TermId {
        let count = self.text.terms();
        if count > 0 && self.random.chance(50) {
            let back = if self.random.chance(60) { count.min(8) } else { count };
            return count - 1 - self.random.below(back);
        }
        self.new_term()
    }

    fn terms(&mut self, most: usize) -> Vec<TermId> {
        (0..self.random.within(0..=most)).map(|_| self.term()).collect()
    }

    fn groups(&mut self, most: usize) -> Vec<Vec<TermId>> {
        (0..self.random.within(0..=most)).map(|_| self.terms(3)).collect()
    }

    fn new_term(&mut self) -> TermId {
        // The deeper terms come later, so a new term does not always ask for new ones.
        if self.text.terms() == 0 || self.random.chance(40) {
            return self.name_term();
        }
        match self.random.below(10) {
            0 => self.text.leaf(),
            1..=3 => {
                let (name, parts) = (self.symbol(), self.terms(3));
                self.text.call(name, &parts)
            }
            4..=5 => {
                let word = self.random.pick(&["true", "iff", "eq", "and", "other"]);
                let parts = self.terms(3);
                self.text.op(word, &parts)
            }
            6 => {
                let (body, groups) = (self.term(), self.groups(3));
                self.text.all(body, &groups)
            }
            7 => {
                let (body, groups) = (self.term(), self.groups(3));
                self.text.some(body, &groups)
            }
            8 => {
                let (body, parts) = (self.term(), self.terms(3));
                self.text.bind(body, &parts)
            }
            _ => {
                let inner = self.term();
                self.text.label(inner)
            }
        }
    }

    /// A `free`, or a `call` of none.
    fn name_term(&mut self) -> TermId {
        let name = self.symbol();
        self.named(&name)
    }

    fn named(&mut self, name: &str) -> TermId {
        if self.random.chance(50) {
            self.text.free(name)
        } else {
            self.text.call(name, &[])
        }
    }

    /// So many terms, now and then one more or one less.
    fn about(&mut self, count: usize) -> Vec<TermId> {
        let count = match self.random.below(20) {
            0 => count + 1,
            1 => count - 1,
            _ => count,
        };
        (0..count).map(|_| self.term()).collect()
    }

    /// A call of about so many terms, of which the last is given.
    fn call_ending(&mut self, name: &str, count: usize, last: TermId) -> TermId {
        let mut parts = self.about(count);
        if let Some(part) = parts.last_mut() {
            *part = last;
        }
        self.text.call(name, &parts)
    }

    /// A term that one of the rules is for, and the start of a name that goes with it.
    fn shape(&mut self) -> (&'static str, TermId) {
        match self.random.below(14) {
            0 | 13 => {
                let (body, groups) = (self.term(), self.groups(4));
                let mut term = self.text.all(body, &groups);
                for _ in 0..self.random.within(0..=2) {
                    term = self.text.label(term);
                }
                ("", term)
            }
            1 => {
                let parts = self.about(2);
                ("l_quant_interp", self.text.op("iff", &parts))
            }
            2 => ("assumption_", self.term()),
            3 => {
                let payload = match self.random.below(3) {
                    0 => self.term(),
                    1 => {
                        let body = self.term();
                        self.text.all(body, &[Vec::new()])
                    }
                    _ => {
                        let (body, groups) = (self.term(), self.groups(3));
                        self.text.all(body, &groups)
                    }
                };
                let ty = match self.random.below(4) {
                    0 => {
                        let name = self.random.pick(&["Tm_refine_7", "Tm_refine", "Prims.squash"]);
                        self.named(name)
                    }
                    1 => self.text.call("Tm_refine_7", &[payload]),
                    _ => self.call_ending("Prims.squash", 2, payload),
                };
                ("", self.call_ending("HasType", 2, ty))
            }
            4 => {
                let marker = match self.random.below(5) {
                    0 => self.term(),
                    1 => {
                        let parts = self.terms(2);
                        self.text.call("__uu__PartialApp", &parts)
                    }
                    _ => self.named("__uu__PartialApp"),
                };
                let token = if self.random.chance(80) { self.name_term() } else { self.term() };
                let mut parts = self.about(2);
                if let [first, second, ..] = parts.as_mut_slice() {
                    (*first, *second) = (marker, token);
                }
                let apply = self.text.call("ApplyTT", &parts);
                ("", self.text.call("Valid", &[apply]))
            }
            5 => {
                let head = self.random.pick(&["Valid", "IsTotFun", "is-Tm_arrow", "HasType"]);
                let parts = self.about(if head == "HasType" { 2 } else { 1 });
                ("", self.text.call(head, &parts))
            }
            6 => {
                let argument = self.about(1);
                let right = self.text.call("Term_constr_id", &argument);
                let left = self.term();
                ("", self.text.op("eq", &[left, right]))
            }
            7 => {
                let parts: Vec<TermId> = (0..self.random.within(0..=4))
                    .map(|_| if self.random.chance(60) { self.shape().1 } else { self.term() })
                    .collect();
                ("", self.text.op("and", &parts))
            }
            8 => {
                let parts = self.about(2);
                ("equation_", self.text.op("eq", &parts))
            }
            9 => {
                let mut side = || {
                    let (parts, valid) = (self.about(2), self.random.chance(90));
                    let inner = self.text.call("Prims.hasEq", &parts);
                    self.text.call(if valid { "Valid" } else { "Valid2" }, &[inner])
                };
                let (left, right) = (side(), side());
                ("", self.text.op("iff", &[left, right]))
            }
            10 => {
                let word = self.random.pick(&["eq", "iff"]);
                let parts = self.about(2);
                ("", self.text.op(word, &parts))
            }
            11 => {
                let parts = self.terms(1);
                ("", self.text.op("true", &parts))
            }
            _ => ("", self.new_term()),
        }
    }

    /// A name that no assume, fun or def line has; mostly one of its own.
    fn record_name(&mut self, start: &str) -> String {
        let mut name = if self.random.chance(25) { self.symbol() } else { format!("r{}", self.random.below(5_000)) };
        if self.random.chance(80) {
            name.insert_str(0, start);
        }
        if self.random.chance(6) {
            name.insert_str(0, self.random.pick(&PREFIXES));
        }
        while !self.taken.insert(name.clone()) {
            name.push((b'a' + self.random.below(26) as u8) as char);
        }
        name
    }

    fn flag(&mut self) -> u32 {
        u32::from(self.random.chance(20))
    }

    fn fact(&mut self) {
        let (start, term) = self.shape();
        let (name, flag) = (self.record_name(start), self.flag());
        self.text.assume(name, flag, term);
    }

    /// A name to declare: mostly one that terms use.
    fn declared(&mut self) -> Option<String> {
        let name = self.symbol();
        self.taken.insert(name.clone()).then_some(name)
    }

    fn def(&mut self) {
        let term = self.term();
        if let Some(name) = self.declared() {
            self.text.def(name, term);
        }
    }

    /// Definitions of which each names the next, in any order of lines; at the end a declaration, a fact, the first of them
    /// again, or nothing.
    fn bodies(&mut self) {
        let mut names: Vec<String> = Vec::new();
        for _ in 0..self.random.within(1..=6) {
            let name = if self.random.chance(70) { self.symbol() } else { format!("d{}", self.random.below(1_000)) };
            if !self.taken.contains(&name) && !names.contains(&name) {
                names.push(name);
            }
        }
        let Some(first) = names.first().cloned() else { return };
        let mut lines = Vec::new();
        for (index, name) in names.iter().enumerate() {
            let next = match names.get(index + 1) {
                Some(next) => next.clone(),
                None if self.random.chance(50) => first.clone(),
                None => self.symbol(),
            };
            let named = self.named(&next);
            let body = if self.random.chance(60) { named } else { self.wrapped(named) };
            let is_last = index + 1 == names.len();
            lines.push(match self.random.below(4) {
                0 if is_last => format!("fun,{name}"),
                1 if is_last => format!("assume,{name},{},{body}", self.flag()),
                _ => format!("def,{name},{body}"),
            });
            self.taken.insert(name.clone());
        }
        if self.random.chance(50) {
            let term = self.named(&first);
            lines.push(format!("root,{},goal,{term}", self.random.pick(&self.queries)));
        }
        for index in (1..lines.len()).rev() {
            lines.swap(index, self.random.below(index + 1));
        }
        lines.iter().for_each(|line| self.text.line(line));
    }

    /// A term with this one somewhere in it, and often others.
    fn wrapped(&mut self, term: TermId) -> TermId {
        let mut parts = self.terms(2);
        parts.insert(self.random.below(parts.len() + 1), term);
        match self.random.below(5) {
            0 => self.text.op("other", &parts),
            1 => {
                let body = self.term();
                self.text.all(body, &[parts])
            }
            2 => {
                let body = self.term();
                self.text.some(body, &[Vec::new(), parts])
            }
            3 => {
                let body = self.term();
                self.text.bind(body, &parts)
            }
            _ => {
                let name = self.symbol();
                self.text.call(name, &parts)
            }
        }
    }

    fn fun(&mut self) {
        if let Some(name) = self.declared() {
            self.text.fun(name);
        }
    }

    fn retain(&mut self) {
        let names: Vec<String> = (0..self.random.within(0..=4)).map(|_| self.symbol()).collect();
        self.text.retain(names);
    }

    fn root(&mut self) {
        let query = if self.random.chance(65) { self.random.pick(&self.queries) } else { self.random.below(4) as u32 };
        let (name, term) = (self.symbol(), self.term());
        self.text.root(query, name, term);
    }

    /// Facts of which each brings the next, some by way of a def; often by names that nothing else brings.
    fn chain(&mut self) {
        let own = self.random.chance(40);
        let start = if own { format!("start{}", self.text.terms()) } else { self.symbol() };
        let mut term = self.named(&start);
        if self.random.chance(60) {
            let query = self.random.pick(&self.queries);
            self.text.root(query, start, term);
        }
        let long = self.random.chance(4);
        for step in 0..self.random.within(if long { 20..=200 } else { 1..=8 }) {
            let symbol = match (long, own) {
                (true, _) => format!("step{step}"),
                (false, true) => format!("step{}", self.text.terms()),
                (false, false) => self.symbol(),
            };
            let next = self.named(&symbol);
            let mut groups = vec![vec![term]];
            if self.random.chance(30) {
                groups.push(self.terms(2));
            }
            if self.random.chance(20) {
                groups.insert(0, Vec::new());
            }
            let fact = self.text.all(next, &groups);
            let (name, flag) = (self.record_name(""), if long { 0 } else { self.flag() });
            self.text.assume(name, flag, fact);
            term = next;
            if self.random.chance(25) && self.taken.insert(symbol.clone()) {
                let opened = self.name_term();
                self.text.def(symbol, opened);
                term = opened;
            }
        }
    }
}

/// A well-formed file with some damage done to it.
pub fn damaged(random: &mut Random) -> Vec<u8> {
    let mut file = small(random);
    for _ in 0..random.within(1..=3) {
        match random.below(10) {
            0..=2 => damage_bytes(&mut file, random),
            3..=6 => damage_fields(&mut file, random),
            7..=8 => damage_lines(&mut file, random),
            _ => {
                file.pop();
            }
        }
    }
    file
}

/// Bytes that fields and lines turn on.
const TURNING: [u8; 12] = [b',', b'\n', b'0', b'9', b'a', b' ', b'\r', b'!', b'~', 0x00, 0x7f, 0x80];

fn damage_bytes(file: &mut Vec<u8>, random: &mut Random) {
    if file.is_empty() {
        return;
    }
    let at = random.below(file.len());
    let byte = if random.chance(70) { random.pick(&TURNING) } else { random.byte() };
    match random.below(5) {
        0 => file[at] ^= 1 << random.below(8),
        1 => file[at] = byte,
        2 => {
            file.remove(at);
        }
        3 => file.insert(at, byte),
        _ => file.truncate(at),
    }
}

/// Words that stand in files, good in some places.
const WORDS: [&str; 38] = [
    "ask", "ask2", "also", "hide", "free", "leaf", "call", "op", "all", "some", "let", "label", "assume", "fun", "def",
    "retain", "root", "true", "iff", "eq", "and", "other", "xor", "Free", "", "0", "1", "2", "255", "256", "65535",
    "65536", "00", "01", "-1", "8", "15", "16",
];

fn damage_fields(file: &mut Vec<u8>, random: &mut Random) {
    let mut lines: Vec<Vec<u8>> = file.split(|&byte| byte == b'\n').map(<[u8]>::to_vec).collect();
    let at = random.below(lines.len());
    let mut fields: Vec<Vec<u8>> = lines[at].split(|&byte| byte == b',').map(<[u8]>::to_vec).collect();
    let field = random.below(fields.len());
    match random.below(8) {
        0 => {
            fields.remove(field);
        }
        1 => fields.insert(field, fields[field].clone()),
        2 => {
            let other = random.below(fields.len());
            fields.swap(field, other);
        }
        3 => fields[field] = random.pick(&WORDS).as_bytes().to_vec(),
        4 => fields.push(random.pick(&WORDS).as_bytes().to_vec()),
        5 => fields[field] = vec![b'x'; random.within(254..=257)],
        6 => fields[field] = random.below(70).to_string().into_bytes(),
        _ => {
            // A number one higher or lower, or else a changed name.
            let number = std::str::from_utf8(&fields[field]).ok().and_then(|text| text.parse::<u32>().ok());
            match number {
                Some(number) if random.chance(50) => fields[field] = (number + 1).to_string().into_bytes(),
                Some(number) => fields[field] = number.saturating_sub(1).to_string().into_bytes(),
                None => fields[field].push(random.pick(&TURNING)),
            }
        }
    }
    lines[at] = fields.join(&b',');
    *file = lines.join(&b'\n');
}

/// Lines of the head of a file, good ones and bad ones.
const HEAD_LINES: [&str; 44] = [
    "hide,p",
    "hide,p",
    "hide,f@tok",
    "hide,Valid",
    "hide",
    "hide,",
    "hide,p,q",
    "hide,p,",
    "hide,p q",
    "Hide,p",
    "ask,0,0",
    "ask,1,12",
    "ask,2,7",
    "ask,255,15",
    "ask",
    "ask,0",
    "ask,256,0",
    "ask,0,16",
    "ask,0,0,",
    "also,0",
    "also,1",
    "also,2",
    "also,255",
    "also",
    "also,",
    "also,256",
    "also,0,0",
    "also,00",
    "Also,0",
    "ask2,0,0,0",
    "ask2,0,0,1",
    "ask2,1,12,65535",
    "ask2,2,7,4",
    "ask2,255,15,32768",
    "ask2",
    "ask2,0,0",
    "ask2,0,0,",
    "ask2,0,0,65536",
    "ask2,0,0,01",
    "ask2,0,0,0,0",
    "ask2,256,0,0",
    "ask,0,0,1",
    "ask3,0,0,1",
    "leaf",
];

fn damage_lines(file: &mut Vec<u8>, random: &mut Random) {
    let form = form(file);
    let mut lines: Vec<Vec<u8>> = file.split(|&byte| byte == b'\n').map(<[u8]>::to_vec).collect();
    let (at, other) = (random.below(lines.len()), random.below(lines.len()));
    let is_position = |line: &&Vec<u8>| line.starts_with(b"ask") || line.starts_with(b"also");
    let head = lines.iter().take_while(|line| is_position(line) || line.starts_with(b"hide")).count();
    let repeats = |line: &&Vec<u8>| [&b"assume"[..], b"fun", b"def"].iter().any(|kind| line.starts_with(kind));
    match random.below(14) {
        0 => {
            lines.remove(at);
        }
        // The fields of the other form: a group more or less in a fact, or other groups.
        13 => {
            let facts: Vec<usize> = (0..lines.len()).filter(|&line| lines[line].starts_with(b"assume,")).collect();
            if !facts.is_empty() {
                let line = random.pick(&facts);
                let mut fields: Vec<Vec<u8>> = lines[line].split(|&byte| byte == b',').map(<[u8]>::to_vec).collect();
                let group = random.pick(&["0", "1", "15", "16", "65536", "", "00", "x"]).as_bytes().to_vec();
                match random.below(3) {
                    0 if fields.len() > 4 => {
                        fields.remove(3);
                    }
                    0 | 1 => fields.insert(fields.len().min(3), group),
                    _ if fields.len() > 4 => fields[3] = group,
                    _ => {}
                }
                lines[line] = fields.join(&b',');
            }
        }
        10 => {
            let (query, options) = (random.below(3) as u32, random.within(4..=20) as u32);
            lines[0] = match random.below(10) {
                0..=6 if form == Form::Newer => Position::Ask2(query, options, groups(random)),
                0 => Position::Ask2(query, options, groups(random)),
                _ => Position::Ask(query, options),
            }
            .to_string()
            .into_bytes();
        }
        // As many ask and also lines as there may be, or one or two more; the last of them may be anything.
        11 => {
            let positions = lines.iter().take_while(is_position).count();
            let more = random.within(limits::ASKS - 1..=limits::ASKS + 1).saturating_sub(positions);
            for _ in 0..more {
                lines.insert(positions, position(form, random).to_string().into_bytes());
            }
            lines.insert(positions + more, random.pick(&HEAD_LINES).as_bytes().to_vec());
        }
        // An ask or also line anywhere.
        12 => lines.insert(at, position(form, random).to_string().into_bytes()),
        1 => lines.insert(other, lines[at].clone()),
        // A line in the head of the file, and one anywhere.
        8 => lines.insert(random.within(0..=head), random.pick(&HEAD_LINES).as_bytes().to_vec()),
        9 => lines.insert(at, random.pick(&HEAD_LINES).as_bytes().to_vec()),
        6 | 7 => {
            // A record once more, before the empty end that the final 0A leaves.
            if let Some(line) = lines.iter().find(repeats).cloned() {
                lines.insert(lines.len() - 1, line);
            }
        }
        2 => lines.swap(at, other),
        3 => lines.insert(at, Vec::new()),
        4 => lines.insert(at, random.pick(&WORDS).as_bytes().to_vec()),
        _ => lines.truncate(at),
    }
    *file = lines.join(&b'\n');
}

/// Bytes without form, or words and commas in any order.
pub fn raw(random: &mut Random) -> Vec<u8> {
    let length = match random.below(10) {
        0..=6 => random.within(0..=60),
        7..=8 => random.within(0..=2_000),
        _ => random.within(65_000..=65_600),
    };
    let mut file = Vec::new();
    match random.below(10) {
        0..=2 => file.extend_from_slice(b"ask,0,0\n"),
        3..=4 => file.extend_from_slice(b"ask2,0,0,1\n"),
        _ => {}
    }
    let words = random.chance(70);
    while file.len() < length {
        if words {
            file.extend_from_slice(random.pick(&WORDS).as_bytes());
            file.push(if random.chance(70) { b',' } else { b'\n' });
        } else {
            file.push(random.byte());
        }
    }
    file
}

/// A file that comes near one limit or two, and then a few lines more.
pub fn near_a_limit(random: &mut Random) -> Vec<u8> {
    let positions = if random.chance(70) { vec![Position::Ask(0, options(random))] } else { positions(random) };
    let mut text = Text::positions(&positions);
    let hides = if random.chance(30) { random.pick(&[1, 2, 500, limits::RECORDS - 2, limits::RECORDS]) } else { 0 };
    for _ in 0..hides {
        text.hide(random.pick(&["p", "t", "t@tok", "Valid", "n1", "z1", "wide"]));
    }
    text.free("p");
    let (marker, token) = (text.free("__uu__PartialApp"), text.free("t@tok"));
    let apply = text.call("ApplyTT", &[marker, token]);
    text.call("Valid", &[apply]);
    for _ in 0..random.within(1..=2) {
        let less = random.below(4);
        match random.below(8) {
            0 => edges::spell_names(&mut text, limits::NAMES - 7 - less),
            1 => {
                let count = (limits::TERMS - less).saturating_sub(text.terms());
                edges::add_leaves(&mut text, count);
            }
            2 => {
                edges::add_references(&mut text, limits::REFERENCES - 5 - less);
            }
            3 => edges::add_records(&mut text, (limits::RECORDS - 2 - less).saturating_sub(hides)),
            4 => {
                let all = edges::add_empty_groups(&mut text, limits::ENTRIES - 2 - less);
                text.assume("full", 0, all);
            }
            5 => {
                let count = random.within(3_000..=14_000);
                let all = edges::add_empty_groups(&mut text, count);
                text.op("and", &vec![all; count]);
            }
            6 => {
                edges::add_empty_groups(&mut text, random.within(20_000..=30_000));
            }
            _ => {
                let wide = edges::add_wide_call(&mut text, 64);
                for _ in 0..95 {
                    text.root(random.below(3) as u32, "r", wide);
                }
                for _ in 0..64 - less {
                    text.root(random.below(3) as u32, "s", 0);
                }
            }
        }
    }
    let last = text.terms() - 1;
    let last_fact = format!("assume,z2,0,{last}");
    let last_root = format!("root,0,z2,{last}");
    let good = [
        &last_fact,
        &last_root,
        "free,z1",
        "free,z2",
        "leaf",
        "label,0",
        "op,and,0,0",
        "let,0,0,0",
        "call,z3,0",
        "all,0,2,0,1,0",
        "assume,z1,0,4",
        "assume,t,0,4",
        "assume,z1,0,0",
        "assume,assumption_1,0,0",
        "assume,assumption_2,1,0",
        "fun,z1",
        "fun,z4",
        "def,z5,0",
        "retain,p",
        "retain,z6,z7",
        "root,0,r,0",
        "root,1,z8,0",
    ];
    let bad = [
        "retain,z9,",
        "call,z1,65535",
        "call,z1,0,x",
        "op,xor,0",
        "op,and,0,65535",
        "assume,z1,2,0",
        "assume,z1,0,65536",
        "fun,r,r",
        "all,0,65535",
        "all,0,1,2,0",
        "free,z9 ",
        "hide,z9",
        "ask,0,0",
        "ask2,0,0,1",
        "also,0",
    ];
    for _ in 0..random.within(2..=10) {
        text.line(if random.chance(90) { random.pick(&good) } else { random.pick(&bad) });
    }
    if random.chance(5) && text.len() < 65_000 {
        let total = random.within(65_534..=65_537);
        edges::add_bytes(&mut text, total);
        return text.finish();
    }
    in_some_form(text.finish(), random)
}

/// A case in which the lengths of the slices matter.
fn lent(random: &mut Random) -> Case {
    let file = match random.below(4) {
        0 => damaged(random),
        1 => raw(random),
        _ => small(random),
    };
    let kept = filter_file(&file).lines().len();
    let mut works = LONG_ENOUGH;
    for words in &mut works {
        *words = match random.below(40) {
            0 => limits::WORK_WORDS - 1,
            1 => random.below(limits::WORK_WORDS),
            _ => limits::WORK_WORDS + random.below(10),
        };
    }
    let room = match random.below(4) {
        0 => kept,
        1 => kept.saturating_sub(1),
        2 => kept + 1,
        _ => random.below(kept + 2),
    };
    Case::new("lent", file).with_works(works).with_room(room)
}

#[cfg(test)]
mod tests {
    use super::*;
    use crate::{filter, filter_in, Order, Outcome};

    #[test]
    fn a_seed_gives_the_same_cases() {
        assert!(cases(5, 40).eq(cases(5, 40)));
        assert!(cases(5, 40).ne(cases(6, 40)));
    }

    #[test]
    fn every_answer_is_generated() {
        let mut numbers = HashSet::new();
        for case in cases(1, 1_500) {
            numbers.insert(filter(&case.file, case.works, case.room).number());
        }
        assert_eq!(numbers, (0..=13).collect());
    }

    #[test]
    fn every_number_of_ask_and_also_lines_is_generated() {
        let (mut random, mut counts, mut longest) = (Random::new(7), HashSet::new(), HashSet::new());
        for _ in 0..6_000 {
            let positions = positions(&mut random);
            assert!(matches!(positions[0], Position::Ask(..)));
            counts.insert(positions.len());
            let chains = positions.split(|position| matches!(position, Position::Ask(..)));
            longest.insert(chains.map(<[Position]>::len).max().unwrap_or_default());
        }
        assert_eq!(counts, (1..=limits::ASKS + 2).collect());
        assert_eq!(longest, (0..=limits::ASKS + 1).collect());
    }

    /// Files of both forms, and in those of the newer one every group on and off, with facts in it or without.
    #[test]
    fn both_forms_and_every_group_are_generated() {
        let (mut random, mut newer, mut groups, mut off) = (Random::new(9), [0, 0], [[0; 16]; 2], 0);
        for _ in 0..600 {
            let file = formed(&mut random);
            let Ok(background) = crate::reader::read(&file) else { continue };
            newer[usize::from(background.form == Some(Form::Newer))] += 1;
            for ask in &background.asks {
                for fact in &background.facts {
                    groups[usize::from(ask.admits(fact))][fact.group as usize] += 1;
                }
                off += usize::from(background.facts.iter().any(|fact| !ask.admits(fact)));
            }
        }
        assert!(newer.iter().all(|&count| count > 150), "{newer:?}");
        assert!(groups.iter().flatten().all(|&count| count > 20) && off > 150, "{groups:?} {off}");
    }

    /// Stretches of every sort: of a query that is new to its chain or not, with roots or without, that meet names or none,
    /// of several rounds, that reach a fact.
    #[test]
    fn stretches_of_every_sort_are_generated() {
        let (mut random, mut again, mut rootless, mut idle, mut long, mut reaching) = (Random::new(8), 0, 0, 0, 0, 0);
        for _ in 0..1_300 {
            let file = formed(&mut random);
            let Outcome::Kept(lists) = filter_file(&file) else { continue };
            let background = crate::reader::read(&file).unwrap_or_default();
            for (index, ask) in background.asks.iter().enumerate().filter(|(_, ask)| ask.is_also()) {
                let (own, before) = ask.queries.split_last().unwrap();
                let list = &lists[index];
                again += usize::from(before.contains(own));
                rootless += usize::from(background.roots.iter().all(|root| root.query != *own));
                idle += usize::from(list.rounds == 1 && !before.contains(own));
                long += usize::from(list.rounds > 2);
                reaching += usize::from(list.lines.len() > lists[index - 1].lines.len());
            }
        }
        let counts = [again, rootless, idle, long, reaching];
        assert!(counts.iter().all(|&count| count > 30), "{counts:?}");
    }

    #[test]
    fn formed_files_are_refused_for_limits_only() {
        let mut random = Random::new(2);
        let mut kept_in_other_order = 0;
        for _ in 0..300 {
            let file = formed(&mut random);
            let answer = filter_file(&file);
            if let Outcome::Refused { number, .. } = answer {
                assert!([6, 9, 10, 11, 12, 13].contains(&number), "{number}");
            } else if answer != filter_in(Order::Line, &file, LONG_ENOUGH, limits::ROOM) {
                kept_in_other_order += 1;
            }
        }
        assert!(kept_in_other_order > 20, "{kept_in_other_order}");
    }
}
