//! The sum of every stretch of a journey, each added up by itself, and the earliest with the largest.

use super::STRETCH;

#[derive(Clone, Copy, Debug, PartialEq, Eq)]
pub struct Worst {
    pub sum: u32,
    /// The number of the first line, from 1.
    pub first: usize,
}

/// One for each stretch, in the order of their first lines.
pub fn sums(counts: &[u8]) -> Vec<u32> {
    let sum = |stretch: &[u8]| stretch.iter().map(|&count| count as u32).sum();
    counts.windows(STRETCH).map(sum).collect()
}

/// `None` if there is no stretch.
pub fn worst(counts: &[u8]) -> Option<Worst> {
    let sums = sums(counts);
    let sum = sums.iter().copied().max()?;
    let place = sums.iter().position(|&one| one == sum)?;
    Some(Worst {
        sum,
        first: place + 1,
    })
}
