//! What the flips came to: the bodies that are read all the same, and a table of counts.

use super::row::{Place, Read, Row};
use crate::hex;
use std::fmt;

/// So many bodies that four flips off the wire leave readable are shown, and so many for a row
/// of the wire.
const SHOWN_OFF: usize = 4;
const SHOWN_ON: usize = 20;

const COLUMNS: [&str; 15] = [
    "damage",
    "tried",
    "1",
    "2",
    "3",
    "4",
    "5",
    "6",
    "7",
    "8",
    "9",
    "as body",
    "same length",
    "as frame",
    "safe",
];

pub struct Report {
    pub seed: u64,
    pub bodies: usize,
    pub bytes: [Row; 4],
    pub wire: [Row; 2],
}

impl Report {
    pub fn new(seed: u64) -> Report {
        Report {
            seed,
            bodies: 0,
            bytes: [1, 2, 3, 4].map(|flips| Row::new(Place::Bytes, flips)),
            wire: [1, 2].map(|flips| Row::new(Place::Wire, flips)),
        }
    }

    pub fn rows(&self) -> impl Iterator<Item = &Row> {
        self.bytes.iter().chain(&self.wire)
    }

    pub fn right(&self) -> bool {
        self.rows().all(Row::right)
    }
}

impl fmt::Display for Report {
    fn fmt(&self, output: &mut fmt::Formatter) -> fmt::Result {
        for row in self.rows() {
            write_read(output, row)?;
        }
        let lines: Vec<Vec<String>> = self.rows().map(cells).collect();
        let header = COLUMNS.map(str::to_string).to_vec();
        write_table(output, &[&[header], &lines[..]].concat())?;
        let asked: u64 = self.rows().map(|row| row.asked).sum();
        let unlike = self.rows().any(|row| !row.unlike.is_empty());
        let like = if unlike { "DIFFERENT" } else { "the same" };
        writeln!(output, "the reader asked about {asked} of them: {like}")?;
        let (bodies, seed) = (self.bodies, self.seed);
        let verdict = if self.right() { "right" } else { "WRONG" };
        writeln!(output, "{bodies} bodies, seed {seed}: {verdict}")
    }
}

fn name(row: &Row) -> String {
    let place = match row.place {
        Place::Bytes => "off the wire",
        Place::Wire => "on the wire",
    };
    format!("{place}, {}", row.flips)
}

fn cells(row: &Row) -> Vec<String> {
    let mut counts = vec![row.tried];
    counts.extend(&row.numbers[1..]);
    counts.extend([row.read_as_body(), row.same_length]);
    counts.extend([row.numbers[0], row.safe]);
    let counts = counts.iter().map(u64::to_string);
    [name(row)].into_iter().chain(counts).collect()
}

fn write_table(output: &mut fmt::Formatter, lines: &[Vec<String>]) -> fmt::Result {
    let width = |column: usize| lines.iter().map(|line| line[column].len()).max();
    for line in lines {
        write!(output, "{:<1$}", line[0], width(0).unwrap_or(0))?;
        for (column, cell) in line.iter().enumerate().skip(1) {
            write!(output, "  {cell:>0$}", width(column).unwrap_or(0))?;
        }
        writeln!(output)?;
    }
    Ok(())
}

/// What must not be first, then frames, then bodies that are no frame.
fn write_read(output: &mut fmt::Formatter, row: &Row) -> fmt::Result {
    let name = name(row);
    for line in &row.unlike {
        writeln!(output, "{name}: ANOTHER NUMBER: {}", hex::encode(line))?;
    }
    for read in &row.forbidden {
        write!(output, "NOT ALLOWED: {name}: {read}")?;
    }
    let shown = match row.place {
        Place::Bytes => SHOWN_OFF,
        Place::Wire => SHOWN_ON,
    };
    for read in row.frames.iter().chain(&row.bodies).take(shown) {
        write!(output, "{name}: {read}")?;
    }
    Ok(())
}

impl fmt::Display for Read {
    fn fmt(&self, output: &mut fmt::Formatter) -> fmt::Result {
        match self.number {
            0 => write!(output, "read as a frame")?,
            number => write!(output, "read as a body, as a frame {number}")?,
        }
        let length = if self.same_length { "same" } else { "changed" };
        writeln!(output, ", unstuffed length {length}")?;
        writeln!(output, "  before {}", hex::encode(&self.before))?;
        writeln!(output, "  after  {}", hex::encode(&self.after))
    }
}
