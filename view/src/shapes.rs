//! Shapes of marks, drawn around 0 0. Each concentrator has its own, so that colour is never the only sign.

use crate::frames::Frame;
use crate::page::Answers;

const CONCENTRATORS: [&str; 9] = [
    "M-6 0a6 6 0 1 0 12 0a6 6 0 1 0 -12 0z",
    "M-5.5 -5.5h11v11h-11z",
    "M0 -7l7.5 13h-15z",
    "M0 -8l7 8l-7 8l-7 -8z",
    "M0 7l7.5 -13h-15z",
    "M-2.5 -7h5v4.5h4.5v5h-4.5v4.5h-5v-4.5h-4.5v-5h4.5z",
    "M-6 -6.5h12l-12 13h12z",
    "M-3.5 -6.5h7l3.5 6.5l-3.5 6.5h-7l-3.5 -6.5z",
    // all from the ninth on
    "M-7 0a7 7 0 1 0 14 0a7 7 0 1 0 -14 0zM-3 0a3 3 0 1 1 6 0a3 3 0 1 1 -6 0z",
];

/// a box with room for a letter, one for a number, one for the word BAD; the sign of changed outputs; a piece of each bar
pub const BOX: &str = "M-7 -7h14v14h-14z";
pub const NUMBER: &str = "M-8.5 -7h17v14h-17z";
pub const BAD: &str = "M-14 -7h28v14h-28z";
pub const TICKS: &str = "M-8 -4h16v8h-16z";
pub const INPUTS: &str = "M-3 -8h6v16h-6z";
pub const OUTPUTS: &str = "M0 -6l6 6l-6 6l-6 -6z";

/// The sources of the drawn syncs, in the order in which they appear: first those of which one was accepted, at most eight, then
/// the others. From the ninth on they share a shape, so no more than nine are kept.
pub fn sources(answers: &Answers) -> Vec<&str> {
    let lines = || answers.frames.bodies.iter().zip(&answers.story.events);
    let syncs = || lines().filter_map(|(frame, event)| Some((source(frame.as_ref()?)?, event)));
    let accepted = syncs().filter(|(_, event)| !event.refused());
    let mut sources = Vec::new();
    for (source, _) in accepted.chain(syncs()) {
        if sources.len() < CONCENTRATORS.len() && !sources.contains(&source) {
            sources.push(source);
        }
    }
    sources
}

fn source(frame: &Frame) -> Option<&str> {
    if frame.kind() == "sync" {
        frame.field("src")
    } else {
        None
    }
}

/// The shape of a concentrator, by its place among the sources.
pub fn concentrator(sources: &[&str], source: &str) -> &'static str {
    let last = CONCENTRATORS.len() - 1;
    let place = sources.iter().position(|s| *s == source).unwrap_or(last);
    CONCENTRATORS[place.min(last)]
}
