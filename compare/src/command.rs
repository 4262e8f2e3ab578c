//! The commands: each call with what `factfilter` prints of it.

use std::fmt;
use std::str::FromStr;

use crate::{filter_in, limits, order, sweep_in, why, Order, Outcome, Refusal};

/// A command, as it stands after `factfilter`.
#[derive(Clone, Copy, Debug, PartialEq, Eq)]
pub enum Command {
    /// The lists; nothing stands after `factfilter`.
    List,
    /// The reasons at a position.
    Why(usize),
    Sweep,
    Order,
}

impl Command {
    /// The length of a result slice, or of a table in rows, that is long enough for every file.
    pub fn room(self) -> usize {
        match self {
            Command::List | Command::Sweep => limits::ROOM,
            Command::Why(_) => limits::REASON_ROWS,
            Command::Order => limits::ORDER_ROWS,
        }
    }

    /// The word of the command.
    pub fn word(self) -> &'static str {
        match self {
            Command::List => "list",
            Command::Why(_) => "why",
            Command::Sweep => "sweep",
            Command::Order => "order",
        }
    }

    /// What is printed of a file, with working slices of these lengths and a result slice or a table of this one;
    /// definitions and declarations stand in the order given.
    pub fn printed_in(self, inner: Order, file: &[u8], works: [usize; 6], room: usize) -> String {
        match self {
            Command::List => filter_in(inner, file, works, room).to_string(),
            Command::Why(position) => printed(why(file, position, works, room), |reasons| reasons.to_string()),
            Command::Sweep => {
                printed(sweep_in(inner, file, works, room), |lists| lists.iter().map(ToString::to_string).collect())
            }
            Command::Order => printed(order(file, works, room), |needs| needs.to_string()),
        }
    }

    /// What is printed of a file, with slices that are long enough for every file.
    pub fn printed(self, file: &[u8]) -> String {
        self.printed_in(Order::Source, file, crate::LONG_ENOUGH, self.room())
    }
}

/// An answer as it is printed, or its refusal.
fn printed<Answer>(answer: Result<Answer, Refusal>, print: impl FnOnce(Answer) -> String) -> String {
    answer.map_or_else(|refusal| Outcome::from(refusal).to_string(), print)
}

impl FromStr for Command {
    type Err = String;

    fn from_str(text: &str) -> Result<Self, String> {
        let words: Vec<&str> = text.split_ascii_whitespace().collect();
        let command = match *words {
            [] | ["list"] => Some(Command::List),
            ["why", position] => position.parse().ok().map(Command::Why),
            ["sweep"] => Some(Command::Sweep),
            ["order"] => Some(Command::Order),
            _ => None,
        };
        command.ok_or_else(|| format!("no command: {}", words.join(" ")))
    }
}

/// As it is given.
impl fmt::Display for Command {
    fn fmt(&self, out: &mut fmt::Formatter) -> fmt::Result {
        match self {
            Command::Why(position) => write!(out, "why {position}"),
            _ => write!(out, "{}", self.word()),
        }
    }
}
