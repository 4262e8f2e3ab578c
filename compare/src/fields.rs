//! The fields of one line.

use crate::limits;

/// What is wrong with a line, by the number of its refusal.
#[derive(Clone, Copy, Debug, PartialEq, Eq)]
pub enum Fault {
    /// Not a line of this form.
    Form = 1,
    /// A field is no name.
    Name = 2,
    /// A field is no number, or it is outside its range.
    Number = 3,
    /// A term number is too high.
    Term = 4,
    /// A record repeats a name.
    Repeat = 5,
    /// The names pass their limit.
    FullNames = 6,
    /// The term lines or the term references pass theirs.
    FullTerms = 10,
    /// The record lines pass theirs.
    FullRecords = 11,
    /// The trigger entries or the name uses pass theirs.
    FullTriggers = 12,
    /// The ask and also lines pass theirs.
    FullAsks = 13,
}

/// The fields of a line that are still to be read.
pub struct Fields<'a> {
    rest: Option<&'a [u8]>,
}

impl<'a> Fields<'a> {
    /// The fields of a line without its final 0A.
    pub fn new(line: &'a [u8]) -> Self {
        Fields { rest: Some(line) }
    }

    /// Whether every field has been read.
    pub fn is_done(&self) -> bool {
        self.rest.is_none()
    }

    /// Checks that a fixed number of fields is left.
    pub fn exactly(&self, count: usize) -> Result<(), Fault> {
        let left = self.rest.map_or(0, |rest| 1 + rest.iter().filter(|&&byte| byte == b',').count());
        if left == count {
            Ok(())
        } else {
            Err(Fault::Form)
        }
    }

    /// Checks that no field is left over.
    pub fn end(&self) -> Result<(), Fault> {
        self.exactly(0)
    }

    /// The next field as it stands.
    pub fn field(&mut self) -> Result<&'a [u8], Fault> {
        let rest = self.rest.ok_or(Fault::Form)?;
        match rest.iter().position(|&byte| byte == b',') {
            Some(comma) => {
                self.rest = Some(&rest[comma + 1..]);
                Ok(&rest[..comma])
            }
            None => {
                self.rest = None;
                Ok(rest)
            }
        }
    }

    /// The next field, a name.
    pub fn name(&mut self) -> Result<&'a [u8], Fault> {
        let field = self.field()?;
        let fits = (1..=limits::NAME_BYTES).contains(&field.len());
        if fits && field.iter().all(|byte| (0x21..=0x7e).contains(byte)) {
            Ok(field)
        } else {
            Err(Fault::Name)
        }
    }

    /// The next field, a number of at most `most`.
    pub fn number(&mut self, most: u32) -> Result<u32, Fault> {
        parse_number(self.field()?).filter(|&number| number <= most).ok_or(Fault::Number)
    }

    /// The next field, the number of one of the first `count` terms.
    pub fn term(&mut self, count: usize) -> Result<usize, Fault> {
        let number = self.number(limits::NUMBER)? as usize;
        if number < count {
            Ok(number)
        } else {
            Err(Fault::Term)
        }
    }

    /// The terms up to the end of the line.
    pub fn terms(&mut self, count: usize) -> Result<Vec<usize>, Fault> {
        let mut terms = Vec::new();
        while !self.is_done() {
            terms.push(self.term(count)?);
        }
        Ok(terms)
    }
}

/// A decimal number without leading zeros, at most 65,535.
fn parse_number(field: &[u8]) -> Option<u32> {
    let fits = (1..=5).contains(&field.len()) && field.iter().all(u8::is_ascii_digit);
    if !fits || (field[0] == b'0' && field.len() > 1) {
        return None;
    }
    let number = field.iter().fold(0, |number, digit| number * 10 + u32::from(digit - b'0'));
    (number <= limits::NUMBER).then_some(number)
}

#[cfg(test)]
mod tests {
    use super::*;

    #[test]
    fn numbers() {
        for (field, number) in [("0", Some(0)), ("7", Some(7)), ("65535", Some(65535)), ("10", Some(10))] {
            assert_eq!(parse_number(field.as_bytes()), number, "{field}");
        }
        for field in ["", "00", "01", "65536", "99999", "100000", "+1", "-1", "1 ", "0x1", "a"] {
            assert_eq!(parse_number(field.as_bytes()), None, "{field}");
        }
    }

    #[test]
    fn names() {
        assert_eq!(Fields::new(b"!~").name(), Ok(&b"!~"[..]));
        for line in [&b""[..], b" ", b"a b", b"a\x7f", b"\x80", b"\r", b"a\0"] {
            assert_eq!(Fields::new(line).name(), Err(Fault::Name));
        }
        assert!(Fields::new(&[b'a'; 255]).name().is_ok());
        assert_eq!(Fields::new(&[b'a'; 256]).name(), Err(Fault::Name));
    }

    #[test]
    fn counting() {
        let mut fields = Fields::new(b"a,,");
        assert_eq!(fields.exactly(3), Ok(()));
        assert_eq!(fields.field(), Ok(&b"a"[..]));
        assert_eq!(fields.exactly(1), Err(Fault::Form));
        assert_eq!(fields.field(), Ok(&b""[..]));
        assert_eq!(fields.end(), Err(Fault::Form));
        assert_eq!(fields.field(), Ok(&b""[..]));
        assert_eq!(fields.field(), Err(Fault::Form));
        assert_eq!(fields.end(), Ok(()));
    }
}
