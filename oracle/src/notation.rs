//! The notation of lines: which call a line makes, and how far a line fits that makes none.

use crate::term::{Statement, Term};

#[derive(Clone, Debug, PartialEq, Eq)]
pub enum Call {
    Declare,
    State(Statement),
    Same(Term, Term),
    Value(Term),
    List,
}

/// One of these completes every beginning of a line of the notation.
const ENDINGS: [&[u8]; 6] = [b"", b"v", b"0", b" 0", b"0 0", b" 0 0"];

/// The call that a line makes, if it is a line of the notation.
pub fn call(line: &[u8]) -> Option<Call> {
    let mut parts = line.split(|&byte| byte == b' ');
    let letter = parts.next()?;
    let operands: Vec<&[u8]> = parts.collect();
    match (letter, operands.as_slice()) {
        (b"v", []) => Some(Call::Declare),
        (b"e", [left, right]) => Some(Call::State(Statement::Equals(term(left)?, term(right)?))),
        (b"k", [left, value]) => Some(Call::State(Statement::Is(term(left)?, number(value, u64::MAX)?))),
        (b"d", [left, right]) => Some(Call::State(Statement::Apart(term(left)?, term(right)?))),
        (b"s", [left, right]) => Some(Call::Same(term(left)?, term(right)?)),
        (b"w", [only]) => Some(Call::Value(term(only)?)),
        (b"l", []) => Some(Call::List),
        _ => None,
    }
}

/// The length of the longest beginning of these bytes that some line of the notation has.
pub fn fitting(line: &[u8]) -> usize {
    (0..=line.len()).rev().find(|&length| begins_a_line(&line[..length])).unwrap_or(0)
}

fn begins_a_line(beginning: &[u8]) -> bool {
    ENDINGS.iter().any(|ending| call(&[beginning, ending].concat()).is_some())
}

fn term(text: &[u8]) -> Option<Term> {
    let mut numbers = text.split(|&byte| byte == b'.').map(short_number);
    let variable = numbers.next()??;
    let path = numbers.collect::<Option<Vec<u16>>>()?;
    Some(Term { variable, path })
}

fn short_number(text: &[u8]) -> Option<u16> {
    number(text, u64::from(u16::MAX)).map(|number| number as u16)
}

/// A decimal number without a leading zero, up to a greatest one.
fn number(text: &[u8], greatest: u64) -> Option<u64> {
    let digits = !text.is_empty() && text.iter().all(u8::is_ascii_digit);
    let padded = text.len() > 1 && text[0] == b'0';
    if !digits || padded {
        return None;
    }
    let number: u64 = std::str::from_utf8(text).ok()?.parse().ok()?;
    (number <= greatest).then_some(number)
}

#[cfg(test)]
mod tests {
    use super::*;

    #[test]
    fn lines_of_the_notation_make_calls() {
        assert_eq!(call(b"v"), Some(Call::Declare));
        assert_eq!(call(b"w 7.65535"), Some(Call::Value(Term::from(7).then(65_535))));
        let greatest = Statement::Is(Term::from(0), u64::MAX);
        assert_eq!(call(b"k 0 18446744073709551615"), Some(Call::State(greatest)));
    }

    #[test]
    fn a_line_fits_up_to_a_length() {
        let lengths: [(&[u8], usize); 10] = [
            (b"", 0),
            (b"vv", 1),
            (b"e 0", 3),
            (b"e 0..1 0", 4),
            (b"e 00 0", 3),
            (b"e 0.1 0 0", 7),
            (b"k 0 18446744073709551616", 23),
            (b"k 0 5.1", 5),
            (b"w 65536", 6),
            (b"l\r", 1),
        ];
        for (line, length) in lengths {
            assert_eq!((call(line), fitting(line)), (None, length), "{}", String::from_utf8_lossy(line));
        }
    }
}
