//! Journeys through this journey program and another: the stored ones of a folder, and large ones that are made. Both must
//! print the same, and the other must end where the document ends the work. `incidents` does the same for the which program.

mod blocks;
pub mod incidents;
mod large;
mod noise;
mod pieces;
mod report;
mod stored;

pub use report::{Compared, Group, Report};

use crate::fuzz::other::Other;
use crate::fuzz::worst_thousand;
use crate::million::feed;
use std::io;
use std::path::Path;

/// All journeys, through the program with this command. An error is one of running it, or of reading the folder.
pub fn run(folder: &Path, command: &[&str]) -> io::Result<Report> {
    let mut groups = vec![
        Group::new("stored journeys", stored::compare(folder, command)?),
        Group::new("journeys given in two pieces", pieces::compare(command)?),
        Group::new(
            "lines about the end of a block",
            all(command, blocks::journeys())?,
        ),
        Group::new("noise", all(command, noise::journeys())?),
    ];
    let million = large::million();
    for case in large::CASES {
        groups.push(Group::new(case.name, vec![one(command, &case, &million)?]));
    }
    Ok(Report {
        noun: "journeys",
        groups,
    })
}

/// Each journey with its name, whole and then ended.
fn all(command: &[&str], journeys: Vec<(String, Vec<u8>)>) -> io::Result<Vec<Compared>> {
    let other = Other::new(command);
    let compare = |(name, journey): (String, Vec<u8>)| {
        let (own, other) = (worst_thousand(&journey), other.print(&journey)?);
        Ok(Compared::of(&name, &own, &other))
    };
    journeys.into_iter().map(compare).collect()
}

fn one(command: &[&str], case: &large::Case, million: &[u8]) -> io::Result<Compared> {
    let journey = (case.journey)(million);
    let further = large::further(case.after);
    let own = worst_thousand(&[&journey[..], &further].concat());
    let fed = feed(command, [&journey, b"", &further], case.after)?;
    let mut compared = Compared::of(case.name, &own, &fed.printed);
    compared.wrong = compared.wrong.or(fed.went_on.map(str::to_string));
    Ok(compared)
}
