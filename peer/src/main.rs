//! A second SATURN implementation, made from the documents alone, to compare another one with.
//!
//! - `peer answer crc|body|frame`: cases on standard input, answers on standard output
//! - `peer cases crc|body|frame SEED COUNT`: seeded cases
//! - `peer script`, `peer trace`: a script on standard input, what came of it on standard output
//! - `peer scripts SEED COUNT`: a seeded script of COUNT lines
//! - `peer load`: a script on standard input, the line load of each cycle on standard output
//! - `peer loads SEED COUNT`: a seeded script of COUNT lines for it
//! - `peer ring COUNT`: the first COUNT lines of a busy ring
//! - `peer frame`: a list on standard input (frames by their fields, bodies, lines of a script, comments); bodies, frames
//!   and the lines of the script on standard output
//! - `peer frames SEED COUNT`: seeded lines for it
//! - `peer census`: a script on standard input, what it brings up and how often on standard output
//! - `peer list-census`: the same for a list
//! - `peer load-census`: a script on standard input, what its cycles of the line load bring up
//! - `peer worst`: a journey on standard input, its worst thousand cycles on standard output
//! - `peer journeys SEED COUNT`: a seeded journey of COUNT lines for it
//! - `peer edges`: the names of the journeys about the edges
//! - `peer edge NAME`: that journey
//! - `peer which`: a script on standard input, the one frame that mattered on standard output
//! - `peer incident SEED`: a seeded script for it
//! - `peer incident-edges`: the names of the incidents about the edges
//! - `peer incident-edge NAME`: that incident
//! - `peer incident-heavy rest|run`: a script that takes long, in fallback through nearly all of its ticks, or in RUN
//!   through many
//! - `peer fuzz trace|load|worst|which COUNT SEED PROGRAM...`: fresh scripts through `trace`, `load` or `which`, or fresh
//!   journeys through `worst`, and another such program
//! - `peer million PROGRAM...`: scripts of a million lines and more through `load` and another load program
//! - `peer beside DIR PROGRAM...`: the journeys stored in DIR, and large ones that are made, through `worst` and another
//!   journey program
//! - `peer incident-beside DIR PROGRAM...`: the incidents stored in DIR, noise, and inputs that are too long, through
//!   `which` and another which program; with `--heavy` in the place of DIR only two that take long
//! - `peer strike COUNT SEED PROGRAM... -- PROGRAM...`: fresh scripts with refused frames struck, through a trace
//!   program and a script program
//! - `peer flips COUNT SEED`: seeded bodies with bits flipped, off the wire and on it; how many are
//!   read all the same
//! - `peer flips search SEED`: safe writes that one flip and two flips on the wire turn into others
//! - `peer test`: self checks

use peer::cases::{self, Program};
use peer::{
    beside, census, check, flips, fuzz, generate, incident, journey, load, million, script,
    spelling, strike, which, worst,
};
use std::io::{self, BufWriter, ErrorKind, Read, Write};
use std::path::Path;
use std::process::ExitCode;

const USAGE: &str = "usage: peer answer crc|body|frame
       peer cases crc|body|frame SEED COUNT
       peer script
       peer trace
       peer scripts SEED COUNT
       peer load
       peer loads SEED COUNT
       peer ring COUNT
       peer frame
       peer frames SEED COUNT
       peer census
       peer list-census
       peer load-census
       peer worst
       peer journeys SEED COUNT
       peer edges
       peer edge NAME
       peer which
       peer incident SEED
       peer incident-edges
       peer incident-edge NAME
       peer incident-heavy rest|run
       peer fuzz trace|load|worst|which COUNT SEED PROGRAM...
       peer million PROGRAM...
       peer beside DIR PROGRAM...
       peer incident-beside DIR|--heavy PROGRAM...
       peer strike COUNT SEED PROGRAM... -- PROGRAM...
       peer flips COUNT SEED
       peer flips search SEED
       peer test
";

fn main() -> ExitCode {
    let words: Vec<String> = std::env::args().skip(1).collect();
    let words: Vec<&str> = words.iter().map(String::as_str).collect();
    let outcome = match words[..] {
        ["script"] => Some(play(script::Program::Script)),
        ["trace"] => Some(play(script::Program::Trace)),
        ["scripts", seed, count] => made(generate::script, seed, count),
        ["load"] => Some(line_load()),
        ["loads", seed, count] => made(generate::loads, seed, count),
        ["ring", count] => ring(count),
        ["frame"] => Some(frame_lines()),
        ["frames", seed, count] => made(generate::frame_lines, seed, count),
        ["census"] => Some(count(|script| census::of(script).to_string())),
        ["list-census"] => Some(count(|list| census::of_list(list).to_string())),
        ["load-census"] => Some(count(|script| census::of_load(script).to_string())),
        ["fuzz", name, count, seed, ref command @ ..] if !command.is_empty() => {
            fuzzed(name, count, seed, command)
        }
        ["million", ref command @ ..] if !command.is_empty() => Some(a_million(command)),
        ["strike", count, seed, ref commands @ ..] => struck(count, seed, commands),
        ["test"] => Some(test()),
        _ => of_bodies(&words)
            .or_else(|| of_journeys(&words))
            .or_else(|| of_incidents(&words)),
    };
    match outcome {
        Some(Ok(code)) => code,
        // Nobody reads any more.
        Some(Err(error)) if error.kind() == ErrorKind::BrokenPipe => ExitCode::SUCCESS,
        Some(Err(error)) => {
            eprintln!("peer: {error}");
            ExitCode::from(2)
        }
        None => {
            eprint!("{USAGE}");
            ExitCode::from(2)
        }
    }
}

/// `None` for words that are not about CRCs, bodies and single frames.
fn of_bodies(words: &[&str]) -> Option<io::Result<ExitCode>> {
    match *words {
        ["answer", name] => Program::named(name).map(answer),
        ["cases", name, seed, count] => cases(name, seed, count),
        ["flips", "search", seed] => Some(searched(seed.parse().ok()?)),
        ["flips", count, seed] => Some(flipped(count.parse().ok()?, seed.parse().ok()?)),
        _ => None,
    }
}

fn answer(program: Program) -> io::Result<ExitCode> {
    let mut input = Vec::new();
    io::stdin().read_to_end(&mut input)?;
    print(cases::answer(program, &input))
}

/// `None` for words that are not a program and two numbers.
fn cases(name: &str, seed: &str, count: &str) -> Option<io::Result<ExitCode>> {
    let program = Program::named(name)?;
    let (seed, count) = (seed.parse().ok()?, count.parse().ok()?);
    let lines = generate::cases(program, seed, count);
    Some(print(
        lines
            .iter()
            .map(|line| format!("{line}\n"))
            .collect::<String>(),
    ))
}

fn flipped(count: usize, seed: u64) -> io::Result<ExitCode> {
    let report = flips::run(count, seed);
    print(report.to_string())?;
    Ok(verdict(report.right()))
}

fn searched(seed: u64) -> io::Result<ExitCode> {
    let mut right = true;
    for pair in flips::search::pairs(seed) {
        right &= pair.as_ref().is_some_and(|pair| pair.right());
        print(pair.map_or("none found\n".to_string(), |pair| pair.to_string()))?;
    }
    Ok(verdict(right))
}

/// `None` for words that are not two numbers.
fn made<T: AsRef<[u8]>>(
    make: fn(u64, usize) -> T,
    seed: &str,
    count: &str,
) -> Option<io::Result<ExitCode>> {
    let (seed, count) = (seed.parse().ok()?, count.parse().ok()?);
    Some(print(make(seed, count)))
}

fn frame_lines() -> io::Result<ExitCode> {
    let output = BufWriter::new(io::stdout().lock());
    spelling::run(io::stdin().lock(), output)?;
    Ok(ExitCode::SUCCESS)
}

fn play(program: script::Program) -> io::Result<ExitCode> {
    let output = BufWriter::new(io::stdout().lock());
    script::run(program, io::stdin().lock(), output)?;
    Ok(ExitCode::SUCCESS)
}

fn line_load() -> io::Result<ExitCode> {
    load::run(io::stdin().lock(), BufWriter::new(io::stdout().lock()))?;
    Ok(ExitCode::SUCCESS)
}

/// `None` for words that are not about journeys.
fn of_journeys(words: &[&str]) -> Option<io::Result<ExitCode>> {
    match *words {
        ["worst"] => Some(worst_thousand()),
        ["journeys", seed, count] => made(journey::journey, seed, count),
        ["edges"] => Some(edges()),
        ["edge", name] => journey::edge(name).map(print),
        ["beside", folder, ref command @ ..] if !command.is_empty() => {
            Some(told(beside::run(Path::new(folder), command)))
        }
        _ => None,
    }
}

fn worst_thousand() -> io::Result<ExitCode> {
    worst::run(io::stdin().lock(), io::stdout().lock())?;
    Ok(ExitCode::SUCCESS)
}

fn edges() -> io::Result<ExitCode> {
    let names = journey::edges().into_iter().map(|edge| edge.name + "\n");
    print(names.collect::<String>())
}

/// `None` for words that are not about incidents.
fn of_incidents(words: &[&str]) -> Option<io::Result<ExitCode>> {
    match *words {
        ["which"] => Some(which_frame()),
        ["incident", seed] => Some(print(generate::incident(seed.parse().ok()?))),
        ["incident-edges"] => Some(incident_edges()),
        ["incident-edge", name] => incident::edge(name).map(print),
        ["incident-heavy", name] => incident::heavy(name).map(|heavy| print(heavy.script())),
        ["incident-beside", "--heavy", ref command @ ..] if !command.is_empty() => {
            Some(told(beside::incidents::heavy(command)))
        }
        ["incident-beside", folder, ref command @ ..] if !command.is_empty() => {
            let folder = Path::new(folder);
            Some(told(beside::incidents::run(folder, command)))
        }
        _ => None,
    }
}

fn which_frame() -> io::Result<ExitCode> {
    which::run(io::stdin().lock(), io::stdout().lock())?;
    Ok(ExitCode::SUCCESS)
}

fn incident_edges() -> io::Result<ExitCode> {
    let edges = incident::edges();
    let names = edges.iter().map(|edge| format!("{}\n", edge.name));
    print(names.collect::<String>())
}

/// `None` for a word that is not a number.
fn ring(count: &str) -> Option<io::Result<ExitCode>> {
    Some(print(generate::ring(count.parse().ok()?)))
}

fn count(census: fn(&[u8]) -> String) -> io::Result<ExitCode> {
    let mut input = Vec::new();
    io::stdin().read_to_end(&mut input)?;
    print(census(&input))
}

/// `None` for words that do not begin with a program and two numbers.
fn fuzzed(name: &str, count: &str, seed: &str, command: &[&str]) -> Option<io::Result<ExitCode>> {
    let subject = match name {
        "trace" => fuzz::TRACE,
        "load" => fuzz::LOAD,
        "worst" => fuzz::WORST,
        "which" => fuzz::WHICH,
        _ => return None,
    };
    let (count, seed) = (count.parse().ok()?, seed.parse().ok()?);
    Some(
        fuzz::run(&subject, count, seed, command).and_then(|report| {
            print(report.to_string())?;
            Ok(match report.difference {
                None => ExitCode::SUCCESS,
                Some(_) => ExitCode::FAILURE,
            })
        }),
    )
}

fn a_million(command: &[&str]) -> io::Result<ExitCode> {
    let report = million::run(command)?;
    print(report.to_string())?;
    Ok(verdict(report.right()))
}

fn told(report: io::Result<beside::Report>) -> io::Result<ExitCode> {
    let report = report?;
    print(report.to_string())?;
    Ok(verdict(report.right()))
}

/// `None` for words that do not begin with two numbers, or are not two commands then.
fn struck(count: &str, seed: &str, commands: &[&str]) -> Option<io::Result<ExitCode>> {
    let (count, seed) = (count.parse().ok()?, seed.parse().ok()?);
    let between = commands.iter().position(|&word| word == "--")?;
    let (trace, script) = (&commands[..between], &commands[between + 1..]);
    if trace.is_empty() || script.is_empty() {
        return None;
    }
    Some(strike::run(count, seed, trace, script).and_then(|report| {
        print(report.to_string())?;
        Ok(verdict(report.right()))
    }))
}

fn test() -> io::Result<ExitCode> {
    let tally = check::run();
    print(format!(
        "{} passed, {} failed\n",
        tally.passed, tally.failed
    ))?;
    Ok(verdict(tally.failed == 0))
}

fn verdict(right: bool) -> ExitCode {
    match right {
        true => ExitCode::SUCCESS,
        false => ExitCode::FAILURE,
    }
}

fn print(text: impl AsRef<[u8]>) -> io::Result<ExitCode> {
    io::stdout().write_all(text.as_ref())?;
    Ok(ExitCode::SUCCESS)
}
