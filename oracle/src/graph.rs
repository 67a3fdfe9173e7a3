//! The graph of a list of statements, worked out from the terms that they mention.
//!
//! Every beginning of a mentioned term denotes. Terms are put into classes, one class for
//! one node: said equals share a class, and where two terms share a class, so do their
//! continuations by one attribute. Passes over all terms go on until none joins anything.

use crate::term::{Statement, Term};
use std::collections::{BTreeMap, HashMap};

/// A node, named by one of the terms that denote it.
pub type Node = usize;

/// The variables, and every longer beginning of the mentioned terms, each numbered once.
struct Terms {
    variables: usize,
    /// The term numbered `variables + i` is the term `steps[i].0` and the attribute `steps[i].1`.
    steps: Vec<(usize, u16)>,
    numbers: HashMap<(usize, u16), usize>,
}

impl Terms {
    fn of(variables: usize) -> Terms {
        Terms { variables, steps: Vec::new(), numbers: HashMap::new() }
    }

    fn len(&self) -> usize {
        self.variables + self.steps.len()
    }

    /// The number of a term; it and its beginnings get numbers where they have none.
    fn number(&mut self, term: &Term) -> usize {
        term.path.iter().fold(usize::from(term.variable), |beginning, &attribute| self.step(beginning, attribute))
    }

    fn step(&mut self, beginning: usize, attribute: u16) -> usize {
        let next = self.len();
        let number = *self.numbers.entry((beginning, attribute)).or_insert(next);
        if number == next {
            self.steps.push((beginning, attribute));
        }
        number
    }

    /// Each beginning, the attribute that follows it, and the whole term.
    fn continuations(&self) -> impl Iterator<Item = (usize, u16, usize)> + '_ {
        self.steps.iter().enumerate().map(|(i, &(beginning, attribute))| (beginning, attribute, self.variables + i))
    }
}

/// Classes of numbers: each number points towards the one that names its class.
struct Classes {
    towards: Vec<usize>,
}

impl Classes {
    fn apart(count: usize) -> Classes {
        Classes { towards: (0..count).collect() }
    }

    fn class(&mut self, mut number: usize) -> usize {
        while self.towards[number] != number {
            self.towards[number] = self.towards[self.towards[number]];
            number = self.towards[number];
        }
        number
    }

    /// Says whether two classes have become one.
    fn join(&mut self, one: usize, other: usize) -> bool {
        let (one, other) = (self.class(one), self.class(other));
        self.towards[one.max(other)] = one.min(other);
        one != other
    }

    /// Joins the continuations of joined terms in one pass, and says whether any were joined.
    fn pass(&mut self, terms: &Terms) -> bool {
        let mut reached = HashMap::with_capacity(terms.len());
        let mut joined = false;
        for (beginning, attribute, whole) in terms.continuations() {
            let first = *reached.entry((self.class(beginning), attribute)).or_insert(whole);
            joined |= self.join(first, whole);
        }
        joined
    }
}

/// The nodes that the statements ask for, with their attributes and the values that came to them.
pub struct Graph {
    pub roots: Vec<Node>,
    pub targets: BTreeMap<Node, BTreeMap<u16, Node>>,
    came: BTreeMap<Node, Vec<u64>>,
}

impl Graph {
    pub fn of(variables: usize, said: &[Statement]) -> Graph {
        let mut terms = Terms::of(variables);
        let (equal, valued) = number_statements(&mut terms, said);
        let mut classes = Classes::apart(terms.len());
        for (one, other) in equal {
            classes.join(one, other);
        }
        while classes.pass(&terms) {}
        Graph::of_classes(&terms, &mut classes, &valued)
    }

    fn of_classes(terms: &Terms, classes: &mut Classes, valued: &[(usize, u64)]) -> Graph {
        let roots = (0..terms.variables).map(|variable| classes.class(variable)).collect();
        let mut targets: BTreeMap<Node, BTreeMap<u16, Node>> =
            (0..terms.len()).map(|term| (classes.class(term), BTreeMap::new())).collect();
        for (beginning, attribute, whole) in terms.continuations() {
            targets.entry(classes.class(beginning)).or_default().insert(attribute, classes.class(whole));
        }
        let mut came: BTreeMap<Node, Vec<u64>> = BTreeMap::new();
        for &(term, value) in valued {
            came.entry(classes.class(term)).or_default().push(value);
        }
        Graph { roots, targets, came }
    }

    pub fn denoted(&self, term: &Term) -> Option<Node> {
        let root = *self.roots.get(usize::from(term.variable))?;
        term.path.iter().try_fold(root, |node, attribute| self.targets[&node].get(attribute).copied())
    }

    /// Whether both terms denote, and denote one node.
    pub fn same(&self, left: &Term, right: &Term) -> bool {
        self.denoted(left).is_some_and(|node| self.denoted(right) == Some(node))
    }

    /// The greatest atom at or below all that came to the node, if there is one.
    pub fn value(&self, node: Node) -> Option<u64> {
        let came = self.came.get(&node).map_or(&[][..], Vec::as_slice);
        let mut leaves = came.iter().copied().filter(|&value| value != 0);
        match leaves.next() {
            None => Some(0),
            Some(leaf) => leaves.all(|other| other == leaf).then_some(leaf),
        }
    }

    /// The first term, in listing order, that denotes each node: a term found is tried
    /// with each attribute further on, until no node gets an earlier one.
    pub fn trails(&self) -> BTreeMap<Node, Term> {
        let mut trails = BTreeMap::new();
        for (variable, &root) in (0..).zip(&self.roots) {
            trails.entry(root).or_insert(Term::from(variable));
        }
        while self.shorten(&mut trails) {}
        trails
    }

    fn shorten(&self, trails: &mut BTreeMap<Node, Term>) -> bool {
        let mut changed = false;
        for (node, attributes) in &self.targets {
            let Some(trail) = trails.get(node).cloned() else {
                continue;
            };
            for (&attribute, &target) in attributes {
                let term = trail.then(attribute);
                if trails.get(&target).is_none_or(|known| term < *known) {
                    trails.insert(target, term);
                    changed = true;
                }
            }
        }
        changed
    }

    /// The nodes in listing order, with their trails.
    pub fn in_order(&self) -> Vec<(Term, Node)> {
        let mut nodes: Vec<_> = self.trails().into_iter().map(|(node, trail)| (trail, node)).collect();
        nodes.sort();
        nodes
    }
}

/// Numbers the terms of the statements that make nodes: what is equal, and what has a value.
fn number_statements(terms: &mut Terms, said: &[Statement]) -> (Vec<(usize, usize)>, Vec<(usize, u64)>) {
    let (mut equal, mut valued) = (Vec::new(), Vec::new());
    for statement in said {
        match statement {
            Statement::Equals(left, right) => equal.push((terms.number(left), terms.number(right))),
            Statement::Is(term, value) => valued.push((terms.number(term), *value)),
            Statement::Apart(..) => {}
        }
    }
    (equal, valued)
}

#[cfg(test)]
mod tests {
    use super::*;

    fn term(variable: u16, path: &[u16]) -> Term {
        Term { variable, path: path.to_vec() }
    }

    #[test]
    fn targets_of_joined_nodes_are_joined() {
        let said = [
            Statement::Is(term(0, &[1, 2]), 0),
            Statement::Is(term(1, &[1, 2]), 7),
            Statement::Equals(term(0, &[]), term(1, &[])),
        ];
        let graph = Graph::of(2, &said);
        assert_eq!(graph.targets.len(), 3);
        assert_eq!(graph.value(graph.denoted(&term(0, &[1, 2])).unwrap()), Some(7));
    }

    #[test]
    fn rings_leave_a_ring_of_the_common_divisor() {
        let said =
            [Statement::Equals(term(0, &[1; 6]), term(0, &[])), Statement::Equals(term(0, &[1; 4]), term(0, &[]))];
        let graph = Graph::of(1, &said);
        assert_eq!(graph.targets.len(), 2);
        assert!(graph.same(&term(0, &[1; 2]), &term(0, &[])));
        assert!(!graph.same(&term(0, &[1]), &term(0, &[])));
    }

    #[test]
    fn a_trail_need_not_be_a_mentioned_term() {
        let said = [Statement::Is(term(1, &[2]), 0), Statement::Equals(term(0, &[]), term(1, &[]))];
        let trails: Vec<_> = Graph::of(2, &said).in_order().into_iter().map(|(trail, _)| trail).collect();
        assert_eq!(trails, [term(0, &[]), term(0, &[2])]);
    }

    #[test]
    fn different_atoms_leave_no_value() {
        let said = [Statement::Is(term(0, &[]), 5), Statement::Is(term(0, &[]), 0), Statement::Is(term(0, &[]), 6)];
        assert_eq!(Graph::of(1, &said[..2]).value(0), Some(5));
        assert_eq!(Graph::of(1, &said).value(0), None);
    }
}
