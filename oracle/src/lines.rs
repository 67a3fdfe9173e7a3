//! Lines in, printed lines out.

use crate::notation::{self, Call};
use crate::refusal::Refusal;
use crate::session::Session;

const MAX_LINE: usize = 120;
const BYTES_A_LINE: usize = 32;

/// What one session prints for the lines of an input.
pub fn run(input: &[u8]) -> String {
    let mut session = Session::default();
    lines(input).map(|line| answer(&mut session, line).unwrap_or_else(|refusal| format!("{refusal}\n"))).collect()
}

/// Byte 10 ends a line, and bytes after the last one are a line too.
fn lines(input: &[u8]) -> impl Iterator<Item = &[u8]> {
    input.split_inclusive(|&byte| byte == b'\n').map(|line| line.strip_suffix(b"\n").unwrap_or(line))
}

fn answer(session: &mut Session, line: &[u8]) -> Result<String, Refusal> {
    if line.len() > MAX_LINE {
        return Err(Refusal::LongLine);
    }
    let call = notation::call(line).ok_or_else(|| Refusal::NotInNotation { fitting: notation::fitting(line) })?;
    Ok(match call {
        Call::Declare => format!("ok {}\n", session.declare()?),
        Call::State(statement) => session.state(statement).map(|()| "ok\n".to_string())?,
        Call::Same(left, right) => if session.same(&left, &right)? { "yes\n" } else { "no\n" }.to_string(),
        Call::Value(term) => session.value(&term)?.map_or("none\n".to_string(), |value| format!("{value}\n")),
        Call::List => hexadecimal(&session.list()),
    })
}

fn hexadecimal(bytes: &[u8]) -> String {
    let line =
        |bytes: &[u8]| bytes.iter().map(|byte| format!("{byte:02x}")).chain(["\n".to_string()]).collect::<String>();
    bytes.chunks(BYTES_A_LINE).map(line).collect()
}

#[cfg(test)]
mod tests {
    use super::*;

    #[test]
    fn bytes_after_the_last_line_end_are_a_line() {
        assert_eq!(run(b""), "");
        assert_eq!(run(b"\n"), "refused 22 0\n");
        assert_eq!(run(b"v\nv"), "ok 0\nok 1\n");
    }

    #[test]
    fn a_full_last_line_of_a_listing_has_no_empty_line_after_it() {
        assert_eq!(hexadecimal(&[0xab; 32]), format!("{}\n", "ab".repeat(32)));
    }
}
