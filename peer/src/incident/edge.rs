//! A named script with its answer. They are stored, with what this program prints of them.

use super::hand::Hand;
use super::{copies, fallbacks, forms, names, passages, places, requests, sizes, syncs};

pub struct Edge {
    pub name: &'static str,
    /// By hand, from the documents.
    pub answer: &'static str,
    pub script: Vec<u8>,
}

/// The name, the answer, and how the script is made.
pub type Case = (&'static str, &'static str, fn() -> Hand);

/// `None` if there is none with this name.
pub fn edge(name: &str) -> Option<Vec<u8>> {
    let found = edges().into_iter().find(|edge| edge.name == name);
    found.map(|edge| edge.script)
}

/// All of them; no two have the same name.
pub fn edges() -> Vec<Edge> {
    let cases = [
        &syncs::CASES[..],
        &names::CASES,
        &requests::CASES,
        &passages::CASES,
        &copies::CASES,
        &fallbacks::CASES,
        &forms::CASES,
        &places::CASES,
        &sizes::OF_LINES,
        &sizes::OF_BYTES,
        &sizes::OF_BOTH,
    ];
    let made = |&(name, answer, make): &Case| Edge {
        name,
        answer,
        script: make().text(),
    };
    cases.into_iter().flatten().map(made).collect()
}
