//! Scripts through this which program and another: the stored incidents of a folder, some in pieces, noise, and inputs that
//! are too long, stay open or never end.

mod noise;
mod open;
mod pieces;
mod waits;

use super::{stored, Compared, Group, Report};
use crate::fuzz::other::Other;
use crate::fuzz::which_frame;
use crate::incident::{Heavy, HEAVIES};
use crate::million::feed;
use std::io;
use std::path::Path;

/// In each long line of a heavy script, so that it takes about a second.
const TICKS: u32 = 3_000;

/// All scripts, through the program with this command. An error is one of running it, or of reading the folder.
pub fn run(folder: &Path, command: &[&str]) -> io::Result<Report> {
    let lighter = |heavy: Heavy| (heavy.name.to_string(), heavy.script_of(TICKS));
    let mut groups = vec![
        Group::new("stored incidents", stored::compare(folder, command)?),
        Group::new("incidents given in pieces", pieces::compare(command)?),
        Group::new("noise", all(command, noise::scripts())?),
        Group::new("inputs that must be waited for", waits::compare(command)?),
        Group::new(
            "the heavy scripts with fewer ticks",
            all(command, HEAVIES.map(lighter).into())?,
        ),
    ];
    for case in open::CASES {
        groups.push(Group::new(case.name, vec![one(command, &case)?]));
    }
    Ok(report(groups))
}

/// The heavy scripts alone.
pub fn heavy(command: &[&str]) -> io::Result<Report> {
    let group = |heavy: Heavy| {
        let script = (heavy.what.to_string(), heavy.script());
        Ok(Group::new(heavy.what, all(command, vec![script])?))
    };
    let groups = HEAVIES.into_iter().map(group);
    Ok(report(groups.collect::<io::Result<_>>()?))
}

fn report(groups: Vec<Group>) -> Report {
    Report {
        noun: "scripts",
        groups,
    }
}

/// Each script with its name, whole and then ended.
fn all(command: &[&str], scripts: Vec<(String, Vec<u8>)>) -> io::Result<Vec<Compared>> {
    let other = Other::new(command);
    let compare = |(name, script): (String, Vec<u8>)| {
        let (own, other) = (which_frame(&script), other.print(&script)?);
        Ok(Compared::of(&name, &own, &other))
    };
    scripts.into_iter().map(compare).collect()
}

fn one(command: &[&str], case: &open::Case) -> io::Result<Compared> {
    let script = (case.script)();
    let further = open::further(case);
    let own = which_frame(&[&script[..], &further].concat());
    let fed = feed(command, [&script, b"", &further], case.after)?;
    let mut compared = Compared::of(case.name, &own, &fed.printed);
    compared.wrong = compared.wrong.or(fed.went_on.map(str::to_string));
    Ok(compared)
}
