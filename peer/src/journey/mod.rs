//! Journeys for the journey program: seeded ones, named ones about the edges, and fresh ones for the fuzzer.

mod edges;
mod forms;
mod fresh;
mod seeded;

pub use edges::{edge, edges, Edge};
pub use fresh::fresh;
pub use seeded::journey;

/// Each count with its LF.
pub fn text(counts: &[u8]) -> Vec<u8> {
    let lines = counts.iter().map(|count| format!("{count}\n"));
    lines.collect::<String>().into_bytes()
}
