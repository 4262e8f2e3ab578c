//! What must come before what: the free names of bodies that stand too late, or nowhere.

use std::fmt;

use crate::names::NameId;
use crate::reader::Background;
use crate::{text, Row};

/// The sort of a name whose def or fun stands on the line of the definition or on a later one.
pub const LATE: u32 = 1;
/// The sort of a name that has neither a def nor a fun.
pub const NEITHER: u32 = 2;

/// A row: the line of a definition, the number of a free name of its body, and the sort; with their names.
#[derive(Clone, Copy, Debug, PartialEq, Eq)]
pub struct Need<'a> {
    pub row: Row,
    pub def: &'a [u8],
    pub name: &'a [u8],
}

/// The rows of a file: by the line of the definition, then by name in byte order.
#[derive(Clone, Debug, PartialEq, Eq)]
pub struct Needs<'a>(pub Vec<Need<'a>>);

/// The rows of the check over all def lines.
pub fn needs<'a>(background: &Background<'a>) -> Needs<'a> {
    let Background { names, declarations, macros, .. } = background;
    let mut defs: Vec<(u32, NameId)> = macros.keys().map(|def| (declarations[def].line, *def)).collect();
    defs.sort_unstable();
    let mut needs = Vec::new();
    for (line, def) in defs {
        for number in names.in_byte_order(macros[&def].iter()) {
            let sort = match declarations.get(&number) {
                Some(declaration) if declaration.line < line => continue,
                Some(_) => LATE,
                None => NEITHER,
            };
            let row = Row { line, number: number as u32, cause: sort };
            needs.push(Need { row, def: names.bytes(def), name: names.bytes(number) });
        }
    }
    Needs(needs)
}

/// The rows as `factfilter order` prints them.
impl fmt::Display for Needs<'_> {
    fn fmt(&self, out: &mut fmt::Formatter) -> fmt::Result {
        let Needs(needs) = self;
        for Need { row, def, name } in needs {
            writeln!(out, "{row},{},{}", text(def), text(name))?;
        }
        writeln!(out, "rows,{}", needs.len())
    }
}
