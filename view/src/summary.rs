//! The top of the page: where the script ends and why, which frame mattered, and the counts by answer.

use crate::events::Story;
use crate::page::Answers;
use crate::programs::Programs;
use crate::rows::mode_words;
use crate::script::{Script, MOST_DRAWN};
use crate::text::{escaped, shown};
use crate::words::{self, count, grouped};

/// A cycle of the line load: its first line, and the two numbers that saturn-load prints.
pub struct Cycle {
    pub line: usize,
    pub thousandths: u64,
    pub rest: u64,
}

/// The cycles that open with a drawn line.
pub fn load_of(programs: &Programs, script: &Script) -> Result<Vec<Cycle>, String> {
    let mut cycles = Vec::new();
    programs.run(
        "saturn_load",
        |to| to.write_all(&script.bytes),
        |printed| {
            let text = String::from_utf8_lossy(printed);
            let numbers: Vec<u64> = text.split(' ').filter_map(|n| n.parse().ok()).collect();
            let [line, thousandths, rest] = numbers[..] else {
                return Err(format!("not a line of a load: {text}"));
            };
            if line as usize <= MOST_DRAWN {
                cycles.push(Cycle { line: line as usize, thousandths, rest });
            }
            Ok(())
        },
    )?;
    Ok(cycles)
}

pub fn header(script: &Script, answers: &Answers) -> String {
    let story = &answers.story;
    let mode = mode_words(story.ends.run);
    let ground = story.ends.ground;
    let mut made = format!("<header>\n<h1>{}</h1>\n", shown(&script.title));
    made += &format!("<p id=\"end\" class=\"{mode}\">Ends in {mode}, cycle {:02X}h.</p>\n", story.ends.cyc);
    made += &format!(
        "<p id=\"ground\">Ground of the last fallback (register 26h): {ground}, {}.</p>\n",
        escaped(words::ground(ground))
    );
    made += &format!("<p id=\"which\">{}</p>\n", which(answers));
    made += &format!("<p id=\"drawn\">{}</p>\n", drawn(story));
    made + &counts(story) + "</header>\n"
}

fn which(answers: &Answers) -> String {
    match answers.which.trim() {
        "FALLBACK" => "The script itself ends in fallback, so saturn-which looks for no frame.".into(),
        "NONE" => "No single frame mattered: without any one of them the script still ends in RUN.".into(),
        "LONG" => "Too long for saturn-which, which takes 200 lines and 60,000 bytes.".into(),
        number => {
            let frame = number.parse().ok().and_then(|n: usize| answers.frames.bodies.get(n.checked_sub(1)?)?.as_ref());
            let frame = frame.map_or(String::new(), |f| format!(" ({} <code>{}</code>)", escaped(&f.words()), escaped(&f.text)));
            let number = escaped(number);
            format!(
                "<a href=\"#L{number}\">Line {number} mattered</a>{frame}: without this one line the script would end in fallback. \
                 It is the first such line."
            )
        }
    }
}

fn drawn(story: &Story) -> String {
    let mut made = format!("{}, {}.", count(story.lines, "line", "lines"), count(story.time, "millisecond", "milliseconds"));
    if story.lines > MOST_DRAWN as u64 {
        made += &format!(" <strong>The first {} of {} lines are drawn.</strong>", grouped(MOST_DRAWN as u64), grouped(story.lines));
        made += " What stands above, and the counts, are of all lines.";
    }
    made
}

fn counts(story: &Story) -> String {
    let mut made = String::from("<table id=\"counts\">\n<caption>Lines by answer</caption>\n");
    made += "<thead><tr><th>answer</th><th>in words</th><th>lines</th></tr></thead>\n<tbody>\n";
    for (answer, n) in story.counts.iter().enumerate().filter(|(_, n)| **n > 0) {
        let words = escaped(words::answer(answer as u8));
        made += &format!("<tr><td>{answer}</td><td>{words}</td><td>{}</td></tr>\n", grouped(*n));
    }
    if story.bad > 0 {
        made += &format!("<tr><td>BAD</td><td>not a line of a script</td><td>{}</td></tr>\n", grouped(story.bad));
    }
    made + "</tbody>\n</table>\n"
}

/// Below the rows: the lines that have none.
pub fn rest(story: &Story) -> String {
    let first = MOST_DRAWN as u64 + 1;
    match story.lines {
        lines if lines < first => String::new(),
        lines if lines == first => {
            format!("<p id=\"rest\">Line {} is not drawn.</p>\n", grouped(first))
        }
        lines => format!("<p id=\"rest\">Lines {} to {} are not drawn.</p>\n", grouped(first), grouped(lines)),
    }
}
