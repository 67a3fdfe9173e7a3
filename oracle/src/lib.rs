//! A second implementation of the line program over atoms, to compare the solver with.
//!
//! It keeps nothing but the number of variables and the list of accepted statements.
//! Every call works everything out anew from these two: the terms that must denote,
//! which of them denote one node, the values that came to each node, and the first
//! term of each node. The rules are told in `docs/session.md` and `docs/lines.md`.

pub mod graph;
pub mod lines;
pub mod listing;
pub mod notation;
pub mod refusal;
pub mod session;
pub mod term;
