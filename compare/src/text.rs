//! Writing files line by line.

use std::fmt::{self, Display};

pub use crate::terms::TermId;

/// A line that is answered by a list.
#[derive(Clone, Copy, Debug, PartialEq, Eq)]
pub enum Position {
    /// An ask line of the older form: its query and its options number.
    Ask(u32, u32),
    /// An ask line of the newer form: its query, its options number and the number of its groups.
    Ask2(u32, u32, u32),
    /// An also line: its query.
    Also(u32),
}

impl Position {
    /// Its query.
    pub fn query(self) -> u32 {
        match self {
            Position::Ask(query, _) | Position::Ask2(query, _, _) | Position::Also(query) => query,
        }
    }

    /// The line with another query.
    pub fn with_query(self, query: u32) -> Self {
        match self {
            Position::Ask(_, options) => Position::Ask(query, options),
            Position::Ask2(_, options, groups) => Position::Ask2(query, options, groups),
            Position::Also(_) => Position::Also(query),
        }
    }

    /// The line with other options, where it has some.
    pub fn with_options(self, options: u32) -> Self {
        match self {
            Position::Ask(query, _) => Position::Ask(query, options),
            Position::Ask2(query, _, groups) => Position::Ask2(query, options, groups),
            Position::Also(_) => self,
        }
    }
}

/// The line without its final 0A.
impl Display for Position {
    fn fmt(&self, out: &mut fmt::Formatter) -> fmt::Result {
        match self {
            Position::Ask(query, options) => write!(out, "ask,{query},{options}"),
            Position::Ask2(query, options, groups) => write!(out, "ask2,{query},{options},{groups}"),
            Position::Also(query) => write!(out, "also,{query}"),
        }
    }
}

/// A file under construction, which counts its term lines.
#[derive(Clone, Default)]
pub struct Text {
    bytes: Vec<u8>,
    terms: usize,
}

impl Text {
    /// A file with its first line.
    pub fn ask(query: u32, options: u32) -> Self {
        Text::asks(&[(query, options)])
    }

    /// A file with its ask lines, each a query and an options number.
    pub fn asks(asks: &[(u32, u32)]) -> Self {
        let asks: Vec<Position> = asks.iter().map(|&(query, options)| Position::Ask(query, options)).collect();
        Text::positions(&asks)
    }

    /// A file of the newer form with its first line.
    pub fn ask2(query: u32, options: u32, groups: u32) -> Self {
        Text::positions(&[Position::Ask2(query, options, groups)])
    }

    /// A file with its ask and also lines.
    pub fn positions(positions: &[Position]) -> Self {
        let mut text = Text::default();
        for position in positions {
            text.line(position.to_string());
        }
        text
    }

    /// A file with a chain: an ask line and also lines of these queries.
    pub fn chain(query: u32, options: u32, also: &[u32]) -> Self {
        let mut text = Text::ask(query, options);
        for &query in also {
            text.line(Position::Also(query).to_string());
        }
        text
    }

    /// The bytes of the file.
    pub fn finish(self) -> Vec<u8> {
        self.bytes
    }

    /// How many bytes there are so far.
    pub fn len(&self) -> usize {
        self.bytes.len()
    }

    /// Whether there is no byte yet.
    pub fn is_empty(&self) -> bool {
        self.bytes.is_empty()
    }

    /// How many term lines there are so far.
    pub fn terms(&self) -> usize {
        self.terms
    }

    /// Adds bytes as they are.
    pub fn raw(&mut self, bytes: &[u8]) {
        self.bytes.extend_from_slice(bytes);
    }

    /// Adds a line that is no term line.
    pub fn line(&mut self, line: impl AsRef<[u8]>) {
        self.raw(line.as_ref());
        self.bytes.push(b'\n');
    }

    pub fn hide(&mut self, name: impl Display) {
        self.line(format!("hide,{name}"));
    }

    fn term(&mut self, line: String) -> TermId {
        self.line(line);
        self.terms += 1;
        self.terms - 1
    }

    pub fn free(&mut self, name: impl Display) -> TermId {
        self.term(format!("free,{name}"))
    }

    pub fn leaf(&mut self) -> TermId {
        self.term("leaf".to_owned())
    }

    pub fn call(&mut self, name: impl Display, parts: &[TermId]) -> TermId {
        self.term(format!("call,{name}{}", fields(parts)))
    }

    pub fn op(&mut self, word: &str, parts: &[TermId]) -> TermId {
        self.term(format!("op,{word}{}", fields(parts)))
    }

    pub fn all(&mut self, body: TermId, groups: &[Vec<TermId>]) -> TermId {
        self.term(format!("all,{body}{}", group_fields(groups)))
    }

    pub fn some(&mut self, body: TermId, groups: &[Vec<TermId>]) -> TermId {
        self.term(format!("some,{body}{}", group_fields(groups)))
    }

    pub fn bind(&mut self, body: TermId, parts: &[TermId]) -> TermId {
        self.term(format!("let,{body}{}", fields(parts)))
    }

    pub fn label(&mut self, inner: TermId) -> TermId {
        self.term(format!("label,{inner}"))
    }

    pub fn assume(&mut self, name: impl Display, flag: u32, term: TermId) {
        self.line(format!("assume,{name},{flag},{term}"));
    }

    /// A fact of the newer form.
    pub fn assume_in(&mut self, group: u32, name: impl Display, flag: u32, term: TermId) {
        self.line(format!("assume,{name},{flag},{group},{term}"));
    }

    pub fn fun(&mut self, name: impl Display) {
        self.line(format!("fun,{name}"));
    }

    pub fn def(&mut self, name: impl Display, term: TermId) {
        self.line(format!("def,{name},{term}"));
    }

    pub fn root(&mut self, query: u32, name: impl Display, term: TermId) {
        self.line(format!("root,{query},{name},{term}"));
    }

    pub fn retain<Name: Display>(&mut self, names: impl IntoIterator<Item = Name>) {
        self.line(format!("retain{}", fields(names)));
    }
}

fn fields<Field: Display>(fields: impl IntoIterator<Item = Field>) -> String {
    fields.into_iter().map(|field| format!(",{field}")).collect()
}

fn group_fields(groups: &[Vec<TermId>]) -> String {
    let groups_text = groups.iter().map(|group| format!(",{}{}", group.len(), fields(group)));
    format!(",{}{}", groups.len(), groups_text.collect::<String>())
}
