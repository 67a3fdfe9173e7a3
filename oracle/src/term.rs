//! Terms, statements, and the order in which terms come.

use std::cmp::Ordering;
use std::fmt;

/// A variable followed by attributes.
#[derive(Clone, Debug, PartialEq, Eq)]
pub struct Term {
    pub variable: u16,
    pub path: Vec<u16>,
}

/// What a session is told of its terms.
#[derive(Clone, Debug, PartialEq, Eq)]
pub enum Statement {
    Equals(Term, Term),
    Is(Term, u64),
    Apart(Term, Term),
}

impl Term {
    /// This term followed by one more attribute.
    pub fn then(&self, attribute: u16) -> Term {
        let mut path = self.path.clone();
        path.push(attribute);
        Term { variable: self.variable, path }
    }
}

/// Listing order: the shorter term first, then the lesser variable, then the lesser attributes.
impl Ord for Term {
    fn cmp(&self, other: &Term) -> Ordering {
        let key = |term: &Term| (term.path.len(), term.variable);
        key(self).cmp(&key(other)).then_with(|| self.path.cmp(&other.path))
    }
}

impl PartialOrd for Term {
    fn partial_cmp(&self, other: &Term) -> Option<Ordering> {
        Some(self.cmp(other))
    }
}

impl From<u16> for Term {
    fn from(variable: u16) -> Term {
        Term { variable, path: Vec::new() }
    }
}

impl fmt::Display for Term {
    fn fmt(&self, f: &mut fmt::Formatter) -> fmt::Result {
        write!(f, "{}", self.variable)?;
        self.path.iter().try_for_each(|attribute| write!(f, ".{attribute}"))
    }
}

#[cfg(test)]
mod tests {
    use super::*;

    #[test]
    fn shorter_terms_come_first() {
        let rising = [
            Term::from(0),
            Term::from(1),
            Term::from(0).then(9),
            Term::from(1).then(0),
            Term::from(0).then(2).then(5),
            Term::from(0).then(10).then(0),
        ];
        assert!(rising.windows(2).all(|pair| pair[0] < pair[1]));
    }

    #[test]
    fn a_term_is_written_with_points() {
        assert_eq!(Term::from(12).then(0).then(31).to_string(), "12.0.31");
    }
}
