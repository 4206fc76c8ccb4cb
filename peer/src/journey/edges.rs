//! The named journeys: where the largest sum may lie, how long a journey may be, and where a line of another form may
//! stand. They are stored with their answers.

use super::forms;
use super::text;
use crate::worst::STRETCH;

pub struct Edge {
    pub name: String,
    pub journey: Vec<u8>,
}

impl Edge {
    pub fn new(name: impl Into<String>, journey: Vec<u8>) -> Edge {
        Edge {
            name: name.into(),
            journey,
        }
    }

    fn of_counts(name: &str, counts: Vec<u8>) -> Edge {
        Edge::new(name, text(&counts))
    }
}

/// `None` if there is none with this name.
pub fn edge(name: &str) -> Option<Vec<u8>> {
    let found = edges().into_iter().find(|edge| edge.name == name);
    found.map(|edge| edge.journey)
}

/// All of them; no two have the same name.
pub fn edges() -> Vec<Edge> {
    [
        ties(),
        equal(),
        places(),
        lengths(),
        leaving(),
        forms::placed(),
        forms::ends(),
        forms::lines(),
    ]
    .into_iter()
    .flatten()
    .collect()
}

/// Runs of the same count: the count and how often.
fn runs(runs: &[(u8, usize)]) -> Vec<u8> {
    let runs = runs.iter().map(|&(count, times)| vec![count; times]);
    runs.flatten().collect()
}

/// The largest sum comes more than once, or nearly.
fn ties() -> Vec<Edge> {
    let all = STRETCH;
    [
        (
            "tie-two-apart",
            runs(&[(0, 200), (1, all), (0, 300), (1, all), (0, 100)]),
        ),
        (
            "tie-three-apart",
            runs(&[(0, 1), (1, all), (0, 1), (1, all), (0, 1), (1, all), (0, 1)]),
        ),
        (
            "tie-two-overlapping",
            runs(&[(3, 150), (4, all + 1), (3, 150)]),
        ),
        (
            "tie-three-overlapping",
            runs(&[(3, 150), (4, all + 2), (3, 150)]),
        ),
        (
            "tie-two-overlapping-one-apart",
            runs(&[(0, 7), (1, all + 1), (0, 9), (1, all), (0, 5)]),
        ),
        ("tie-first-and-last", runs(&[(1, all), (0, 50), (1, all)])),
        (
            "tie-of-single-counts",
            runs(&[(0, 1100), (9, 1), (0, 1500), (9, 1), (0, 50)]),
        ),
        (
            "lesser-before",
            runs(&[(1, all - 1), (0, 400), (1, all), (0, 10)]),
        ),
        (
            "lesser-after",
            runs(&[(0, 10), (1, all), (0, 400), (1, all - 1)]),
        ),
    ]
    .map(|(name, counts)| Edge::of_counts(name, counts))
    .into()
}

/// All counts are the same.
fn equal() -> Vec<Edge> {
    vec![
        Edge::of_counts("all-equal", runs(&[(7, 1500)])),
        Edge::of_counts("all-0", runs(&[(0, 1500)])),
        Edge::of_counts("all-255", runs(&[(255, 1200)])),
    ]
}

/// Where the largest sum lies.
fn places() -> Vec<Edge> {
    let grows = (0..1500).map(|place| (place * 255 / 1499) as u8);
    let zigzag = (0..1300).map(|place| if place % 2 == 0 { 0 } else { 255 });
    [
        ("largest-first", runs(&[(255, 1), (0, 1499)])),
        ("largest-last", runs(&[(0, 1499), (255, 1)])),
        ("largest-second", runs(&[(0, 1), (1, STRETCH), (0, 99)])),
        (
            "largest-last-but-one",
            runs(&[(0, 99), (1, STRETCH), (0, 1)]),
        ),
        (
            "largest-at-1001",
            runs(&[(0, STRETCH), (2, STRETCH), (0, 500)]),
        ),
        (
            "largest-across-blocks",
            runs(&[(0, 700), (5, STRETCH), (0, 800)]),
        ),
        ("grows", grows.clone().collect()),
        ("falls", grows.rev().collect()),
        ("only-0-and-255", zigzag.collect()),
        ("every-count", (0..=255).cycle().take(1100).collect()),
    ]
    .map(|(name, counts)| Edge::of_counts(name, counts))
    .into()
}

/// About one stretch.
fn lengths() -> Vec<Edge> {
    [
        ("lines-1", runs(&[(9, 1)])),
        ("lines-999", runs(&[(200, STRETCH - 1)])),
        ("lines-1000", runs(&[(9, 1), (200, STRETCH - 2), (8, 1)])),
        (
            "lines-1001-first",
            runs(&[(9, 1), (1, STRETCH - 1), (8, 1)]),
        ),
        (
            "lines-1001-second",
            runs(&[(8, 1), (1, STRETCH - 1), (9, 1)]),
        ),
        (
            "lines-1001-equal",
            runs(&[(9, 1), (1, STRETCH - 1), (9, 1)]),
        ),
        ("lines-1999", runs(&[(1, STRETCH), (2, STRETCH - 1)])),
        ("lines-2000", runs(&[(1, STRETCH), (2, STRETCH)])),
        ("lines-2001", runs(&[(1, STRETCH), (2, STRETCH + 1)])),
    ]
    .map(|(name, counts)| Edge::of_counts(name, counts))
    .into()
}

/// A large count is in a stretch for a thousand lines, not one less or more: 50 comes just before it leaves, 100 with the
/// line that takes it off.
fn leaving() -> Vec<Edge> {
    let counts = runs(&[(200, 1), (0, STRETCH - 2), (50, 1), (100, 1), (0, 700)]);
    let later = [runs(&[(0, 600)]), counts.clone()].concat();
    vec![
        Edge::of_counts("large-leaves", counts),
        Edge::of_counts("large-leaves-later", later),
    ]
}
