//! saturn-view: makes a page of a script. It runs the proved programs and draws what they say; it judges nothing itself.
//!
//!   saturn-view PROGRAMS [FILE]
//!
//! PROGRAMS is the folder of saturn_trace, saturn_frame, saturn_load and saturn_which. The script comes from FILE or from standard
//! input, the page goes to standard output. view/PAGE.md says what the page holds.

mod changes;
mod events;
mod frames;
mod layout;
mod legend;
mod marks;
mod moments;
mod page;
mod programs;
mod reasons;
mod rows;
mod script;
mod shapes;
mod summary;
mod text;
mod timeline;
mod trace;
mod words;

use programs::Programs;
use script::Script;
use std::io::{self, ErrorKind, Write};
use std::process::ExitCode;

fn main() -> ExitCode {
    let words: Vec<_> = std::env::args_os().skip(1).collect();
    let (folder, file) = match &words[..] {
        [folder] => (folder, None),
        [folder, file] => (folder, Some(file)),
        _ => {
            eprintln!("usage: saturn-view [NAME.script]");
            return ExitCode::from(2);
        }
    };
    let made = Script::read(file.map(|f| f.as_os_str())).and_then(|script| make(&Programs::new(folder), &script));
    match made {
        Ok(()) => ExitCode::SUCCESS,
        Err(why) => {
            eprintln!("saturn-view: {why}");
            ExitCode::FAILURE
        }
    }
}

/// Asks the programs, and writes the page once all have answered: a page is whole or not there.
fn make(programs: &Programs, script: &Script) -> Result<(), String> {
    let answers = std::thread::scope(|scope| {
        let which = scope.spawn(|| programs.printed("saturn_which", &script.bytes));
        let load = scope.spawn(|| summary::load_of(programs, script));
        let story = events::story_of(programs, script)?;
        let moments = moments::moments_of(programs, script, &story)?;
        let frames = frames::frames_of(programs, script, &story)?;
        let load = load.join().map_err(|_| "saturn-load could not be read")??;
        let which = which.join().map_err(|_| "saturn-which could not be read")??;
        Ok::<_, String>(page::Answers { story, moments, frames, load, which })
    })?;
    let page = page::page_of(script, &answers);
    match io::stdout().lock().write_all(page.as_bytes()) {
        Err(e) if e.kind() != ErrorKind::BrokenPipe => Err(format!("the page cannot be written: {e}")),
        _ => Ok(()),
    }
}
