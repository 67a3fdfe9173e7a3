//! The grounds on which a line is refused, with their numbers and what they name.

use crate::term::Term;
use std::fmt;

#[derive(Clone, Debug, PartialEq, Eq)]
pub enum Refusal {
    Undeclared { side: usize },
    LongTerm { side: usize },
    NoAttribute { side: usize, position: usize },
    NoValue,
    ApartsFull,
    ValueClash(Term),
    LeafClash(Term),
    ApartClash { place: usize },
    VariablesFull,
    NodesFull,
    LongLine,
    NotInNotation { fitting: usize },
}

impl fmt::Display for Refusal {
    fn fmt(&self, f: &mut fmt::Formatter) -> fmt::Result {
        write!(f, "refused ")?;
        match self {
            Refusal::Undeclared { side } => write!(f, "1 {side}"),
            Refusal::LongTerm { side } => write!(f, "2 {side}"),
            Refusal::NoAttribute { side, position } => write!(f, "3 {side} {position}"),
            Refusal::NoValue => write!(f, "4"),
            Refusal::ApartsFull => write!(f, "6"),
            Refusal::ValueClash(trail) => write!(f, "7 {trail}"),
            Refusal::LeafClash(trail) => write!(f, "8 {trail}"),
            Refusal::ApartClash { place } => write!(f, "9 {place}"),
            Refusal::VariablesFull => write!(f, "10"),
            Refusal::NodesFull => write!(f, "11"),
            Refusal::LongLine => write!(f, "21"),
            Refusal::NotInNotation { fitting } => write!(f, "22 {fitting}"),
        }
    }
}
