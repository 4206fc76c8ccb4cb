//! What is asked of a script, so that it can be asked again of a shorter one.

use super::marked::Marked;
use super::program::{Programs, Whole};
use super::{terminals, thinned};
use crate::script::Program;
use std::{fmt, io};

/// Two things that have to be the same, each with what it is.
pub type Ways = [(String, String); 2];

#[derive(Clone, Copy)]
pub enum Question {
    /// Each program prints one line for each, and they agree.
    Printed,
    /// The terminals show what the watcher works out.
    Terminals,
    /// What is left prints the same in this program. Then the name of the choice, and the answers of the lines that
    /// it may strike.
    Struck(Program, &'static str, &'static [u8]),
}

/// What is not as it has to be.
pub struct Finding {
    pub question: Question,
    pub lines: Vec<Marked>,
    pub ways: Ways,
}

impl Question {
    pub fn finding(self, lines: Vec<Marked>, ways: Ways) -> Finding {
        Finding {
            question: self,
            lines,
            ways,
        }
    }

    /// `None` if all is as it has to be.
    pub fn ask(&self, programs: &Programs, lines: &[Marked]) -> io::Result<Option<Ways>> {
        match (programs.play(lines)?, self) {
            (Ok(whole), _) => self.ask_of(programs, lines, &whole),
            (Err(ways), Question::Printed) => Ok(Some(ways)),
            (Err(_), _) => Ok(None),
        }
    }

    /// The same when it is known what the programs print of the whole script.
    pub fn ask_of(
        &self,
        programs: &Programs,
        lines: &[Marked],
        whole: &Whole,
    ) -> io::Result<Option<Ways>> {
        match *self {
            Question::Printed => Ok(None),
            Question::Terminals => Ok(terminals::judge(lines, &whole.trace).err()),
            Question::Struck(program, _, numbers) => {
                let open = whole.trace.answered(numbers);
                let mut marks = lines.iter().zip(open);
                // In a shorter script a line may have another answer, and then it may not be struck.
                match marks.all(|(marked, open)| open || !marked.struck) {
                    true => thinned::compare(programs.of(program), whole.of(program), lines),
                    false => Ok(None),
                }
            }
        }
    }
}

impl fmt::Display for Question {
    fn fmt(&self, output: &mut fmt::Formatter) -> fmt::Result {
        match self {
            Question::Printed => write!(output, "one line for each"),
            Question::Terminals => write!(output, "the terminals"),
            Question::Struck(Program::Trace, name, _) => write!(output, "trace program, {name}"),
            Question::Struck(Program::Script, name, _) => write!(output, "script program, {name}"),
        }
    }
}
