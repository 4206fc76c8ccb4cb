//! The cost of the library's calls beside the second implementation's: time, instructions, stack.
//!
//! - `bench`: the whole table; the archive and the kit's tools are named by the script `bench`
//! - `bench run library|second WORKLOAD CALLS`: only the calls, for a counter of instructions

mod counts;
mod ring;
mod sides;
mod stack;
mod table;
mod timing;
mod workloads;

use sides::Side;
use std::process::ExitCode;
use workloads::Workload;

const USAGE: &str = "usage: bench
       bench run library|second WORKLOAD CALLS
";

fn main() -> ExitCode {
    let words: Vec<String> = std::env::args().skip(1).collect();
    let words: Vec<&str> = words.iter().map(String::as_str).collect();
    let done = match words[..] {
        [] => Some(table::print()),
        ["run", side, workload, calls] => run(side, workload, calls).map(Ok),
        _ => None,
    };
    match done {
        Some(Ok(())) => ExitCode::SUCCESS,
        Some(Err(why)) => {
            eprintln!("bench: {why}");
            ExitCode::FAILURE
        }
        None => {
            eprint!("{USAGE}");
            ExitCode::from(2)
        }
    }
}

/// `None` for words that are not a side, a workload and a number.
fn run(side: &str, workload: &str, calls: &str) -> Option<()> {
    let workload = Workload::named(workload)?;
    let calls = calls.parse().ok()?;
    match side {
        "library" => workload.play(&mut Side::library(), calls),
        "second" => workload.play(&mut Side::second(), calls),
        _ => return None,
    }
    Some(())
}
