//! A session: the number of variables and the accepted statements, and nothing else.

use crate::graph::{Graph, Node};
use crate::listing;
use crate::refusal::Refusal;
use crate::term::{Statement, Term};

const MAX_VARIABLES: usize = 64;
const MAX_NODES: usize = 256;
const MAX_PATH: usize = 8;
const MAX_ATTRIBUTE: u16 = 31;
const MAX_APARTS: usize = 128;
const MAX_ATOM: u64 = 65_535;

#[derive(Default)]
pub struct Session {
    variables: usize,
    said: Vec<Statement>,
}

impl Session {
    pub fn declare(&mut self) -> Result<usize, Refusal> {
        if self.variables == MAX_VARIABLES {
            return Err(Refusal::VariablesFull);
        }
        if self.graph().targets.len() == MAX_NODES {
            return Err(Refusal::NodesFull);
        }
        self.variables += 1;
        Ok(self.variables - 1)
    }

    /// Accepts a statement, or takes it back and says why.
    pub fn state(&mut self, statement: Statement) -> Result<(), Refusal> {
        self.check(&statement)?;
        self.said.push(statement);
        let judged = self.judge();
        if judged.is_err() {
            self.said.pop();
        }
        judged
    }

    pub fn same(&self, left: &Term, right: &Term) -> Result<bool, Refusal> {
        self.check_term(0, left)?;
        self.check_term(1, right)?;
        Ok(self.graph().same(left, right))
    }

    pub fn value(&self, term: &Term) -> Result<Option<u64>, Refusal> {
        self.check_term(0, term)?;
        let graph = self.graph();
        Ok(graph.denoted(term).and_then(|node| graph.value(node)))
    }

    pub fn list(&self) -> Vec<u8> {
        listing::bytes(&self.graph())
    }

    fn graph(&self) -> Graph {
        Graph::of(self.variables, &self.said)
    }

    fn aparts(&self) -> impl Iterator<Item = (&Term, &Term)> {
        self.said.iter().filter_map(|statement| match statement {
            Statement::Apart(left, right) => Some((left, right)),
            _ => None,
        })
    }

    /// What can be said against a statement before it is closed.
    fn check(&self, statement: &Statement) -> Result<(), Refusal> {
        match statement {
            Statement::Is(term, value) => {
                self.check_term(0, term)?;
                refuse_if(*value > MAX_ATOM, Refusal::NoValue)
            }
            Statement::Equals(left, right) => {
                self.check_term(0, left)?;
                self.check_term(1, right)
            }
            Statement::Apart(left, right) => {
                self.check_term(0, left)?;
                self.check_term(1, right)?;
                refuse_if(self.aparts().count() == MAX_APARTS, Refusal::ApartsFull)
            }
        }
    }

    fn check_term(&self, side: usize, term: &Term) -> Result<(), Refusal> {
        refuse_if(usize::from(term.variable) >= self.variables, Refusal::Undeclared { side })?;
        refuse_if(term.path.len() > MAX_PATH, Refusal::LongTerm { side })?;
        let outside = term.path.iter().position(|&attribute| attribute > MAX_ATTRIBUTE);
        outside.map_or(Ok(()), |position| Err(Refusal::NoAttribute { side, position }))
    }

    /// What can be said against all statements together, the last one among them.
    fn judge(&self) -> Result<(), Refusal> {
        let graph = self.graph();
        let without_value = |node: &Node| graph.value(*node).is_none();
        let branching_leaf = |node: &Node| graph.value(*node) != Some(0) && !graph.targets[node].is_empty();
        if let Some(trail) = first_at_fault(&graph, without_value) {
            return Err(Refusal::ValueClash(trail));
        }
        if let Some(trail) = first_at_fault(&graph, branching_leaf) {
            return Err(Refusal::LeafClash(trail));
        }
        if let Some(place) = self.aparts().position(|(left, right)| graph.same(left, right)) {
            return Err(Refusal::ApartClash { place });
        }
        refuse_if(graph.targets.len() > MAX_NODES, Refusal::NodesFull)
    }
}

fn refuse_if(ground: bool, refusal: Refusal) -> Result<(), Refusal> {
    if ground {
        Err(refusal)
    } else {
        Ok(())
    }
}

/// The trail of the first node in listing order that is at fault.
fn first_at_fault(graph: &Graph, fault: impl Fn(&Node) -> bool) -> Option<Term> {
    if !graph.targets.keys().any(&fault) {
        return None;
    }
    graph.in_order().into_iter().find(|(_, node)| fault(node)).map(|(trail, _)| trail)
}

#[cfg(test)]
mod tests {
    use super::*;

    #[test]
    fn a_refused_statement_leaves_no_trace() {
        let mut session = Session::default();
        session.declare().unwrap();
        session.state(Statement::Is(Term::from(0), 5)).unwrap();
        let listed = session.list();
        let below = Statement::Is(Term::from(0).then(1), 6);
        assert_eq!(session.state(below), Err(Refusal::LeafClash(Term::from(0))));
        assert_eq!(session.list(), listed);
    }

    #[test]
    fn aparts_are_kept_and_tried_again() {
        let mut session = Session::default();
        session.declare().unwrap();
        session.declare().unwrap();
        session.state(Statement::Apart(Term::from(0), Term::from(1))).unwrap();
        let equal = Statement::Equals(Term::from(0), Term::from(1));
        assert_eq!(session.state(equal), Err(Refusal::ApartClash { place: 0 }));
    }
}
