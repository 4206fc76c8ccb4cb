//! The static library beside the second implementation, call by call and byte by byte.
//!
//! `compare SEED SCRIPTS LINES`: SCRIPTS scripts of LINES lines each, on modules with either limit of
//! requests in turn, with calls between the lines on unsound states, short buffers, other ports, inputs
//! of other lengths, requests around the limit, syncs about their window and ticks that meet the grounds of
//! fallback. Before them, every skip of numbers. Stops at the first difference.

mod alter;
mod call;
mod flood;
mod ground;
mod play;
mod power;
mod skip;
mod spoil;
mod tally;
mod window;

use play::Play;
use std::process::ExitCode;
use tally::Tally;

const USAGE: &str = "usage: compare SEED SCRIPTS LINES\n";

fn main() -> ExitCode {
    let words: Vec<String> = std::env::args().skip(1).collect();
    let numbers: Vec<u64> = words.iter().filter_map(|word| word.parse().ok()).collect();
    let [seed, scripts, lines] = numbers[..] else {
        eprint!("{USAGE}");
        return ExitCode::from(2);
    };
    match run(seed, scripts, lines as usize) {
        Ok(tally) => {
            print!("{tally}");
            tally.verdict()
        }
        Err(difference) => {
            println!("DIFFERENT: {difference}");
            ExitCode::FAILURE
        }
    }
}

fn run(seed: u64, scripts: u64, lines: usize) -> Result<Tally, String> {
    let mut tally = Tally::default();
    power::check(seed, &mut tally)?;
    skip::check(seed, &mut tally)?;
    for seed in seed..seed + scripts {
        Play::new(seed, &mut tally).script(lines)?;
    }
    Ok(tally)
}
