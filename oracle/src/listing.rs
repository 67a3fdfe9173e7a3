//! The bytes of a graph.

use crate::graph::{Graph, Node};
use std::collections::BTreeMap;

/// The records of the nodes in listing order, the table of roots, and the trailer.
/// Every node of the graph has a value.
pub fn bytes(graph: &Graph) -> Vec<u8> {
    let order: Vec<Node> = graph.in_order().into_iter().map(|(_, node)| node).collect();
    let numbers: BTreeMap<Node, u16> = order.iter().copied().zip(0..).collect();
    let mut bytes = Vec::new();
    for &node in &order {
        push_record(&mut bytes, graph, node, &numbers);
    }
    let root_table = bytes.len() as u32;
    for root in &graph.roots {
        bytes.extend(numbers[root].to_le_bytes());
    }
    bytes.extend((order.len() as u16).to_le_bytes());
    bytes.extend((graph.roots.len() as u16).to_le_bytes());
    bytes.extend(root_table.to_le_bytes());
    bytes
}

fn push_record(bytes: &mut Vec<u8>, graph: &Graph, node: Node, numbers: &BTreeMap<Node, u16>) {
    let value = graph.value(node).expect("a session keeps no node without a value");
    let attributes = &graph.targets[&node];
    bytes.extend(value.to_le_bytes());
    bytes.push(attributes.len() as u8);
    for (&attribute, target) in attributes {
        bytes.push(attribute as u8);
        bytes.extend(numbers[target].to_le_bytes());
    }
}

#[cfg(test)]
mod tests {
    use super::*;
    use crate::term::{Statement, Term};

    #[test]
    fn the_empty_graph_is_eight_zero_bytes() {
        assert_eq!(bytes(&Graph::of(0, &[])), [0; 8]);
    }

    #[test]
    fn a_node_may_lead_to_itself() {
        let said = [Statement::Equals(Term::from(0).then(1), Term::from(0))];
        let expected = [0, 0, 0, 0, 0, 0, 0, 0, 1, 1, 0, 0, 0, 0, 1, 0, 1, 0, 12, 0, 0, 0];
        assert_eq!(bytes(&Graph::of(1, &said)), expected);
    }
}
