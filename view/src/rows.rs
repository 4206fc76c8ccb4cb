//! The rows: one for each drawn line, with what it says, what it was answered, what changed and what was replied.

use crate::events::{Done, Event};
use crate::frames::Frame;
use crate::page::Answers;
use crate::script::{Kind, Script};
use crate::text::{escaped, shown};
use crate::{reasons, words};

pub fn rows(script: &Script, answers: &Answers) -> String {
    let mut made = String::new();
    let mut modes = answers.moments.modes.iter().peekable();
    for (i, (line, event)) in script.drawn().zip(&answers.story.events).enumerate() {
        let mut inside = String::new();
        while let Some(mode) = modes.next_if(|m| m.moment.line == i) {
            if matches!(&event.done, Some(Done { kind: Kind::Ticks(_), .. })) {
                inside += &format!("<p>after {} ms: {}</p>", mode.moment.after, mode_words(mode.run));
            }
        }
        made += &row(i, line, event, answers, &inside);
    }
    made
}

fn row(i: usize, line: &[u8], event: &Event, answers: &Answers, inside: &str) -> String {
    let number = i + 1;
    let class = match (&event.done, event.refused()) {
        (None, _) => "bad",
        (_, true) => "refused",
        (_, false) => "ok",
    };
    let mut made = format!("<tr id=\"L{number}\" class=\"{class}\"><td class=\"line\"><a href=\"#M{number}\">{number}</a></td>");
    made += &format!("<td class=\"time\">{}</td>", time(event));
    let cells = match &event.done {
        None => bad(line),
        Some(done) => done_cells(line, done, answers.frames.bodies[i].as_ref(), answers.frames.replies[i].as_ref(), inside),
    };
    made + &cells + "</tr>\n"
}

fn time(event: &Event) -> String {
    if event.end() == event.start {
        event.start.to_string()
    } else {
        format!("{} to {}", event.start, event.end())
    }
}

/// The line itself, and what is wrong with it. It changed nothing.
fn bad(line: &[u8]) -> String {
    let reason = escaped(&reasons::reason(line));
    format!(
        "<td class=\"port\"></td><td class=\"what\"><code>{}</code></td><td class=\"answer\"><b>BAD</b> {reason}</td>\
         <td class=\"mode\"></td><td class=\"changes\"></td><td class=\"reply\"></td>",
        shown(line)
    )
}

fn done_cells(line: &[u8], done: &Done, frame: Option<&Frame>, reply: Option<&Frame>, inside: &str) -> String {
    let (port, what) = match (done.kind, frame) {
        (Kind::Inputs, _) => (String::new(), "1 tick, with inputs".into()),
        (Kind::Ticks(n), _) => (String::new(), words::count(n, "tick", "ticks")),
        (Kind::Frame, frame) => (char::from(line[0]).to_string(), frame.map_or(String::new(), frame_words)),
    };
    let changes: String = done.changes.iter().map(|change| format!("<li>{}</li>", escaped(&change.words()))).collect();
    let changes = if changes.is_empty() { changes } else { format!("<ul>{changes}</ul>") };
    format!(
        "<td class=\"port\">{port}</td><td class=\"what\">{what}</td><td class=\"answer\"><b>{}</b> {}</td>\
         <td class=\"mode\">{} {:02X}</td><td class=\"changes\">{inside}{changes}</td><td class=\"reply\">{}</td>",
        done.answer,
        escaped(words::answer(done.answer)),
        mode_words(done.run),
        done.cyc,
        reply.map_or(String::new(), frame_words)
    )
}

fn frame_words(frame: &Frame) -> String {
    format!("{} <code>{}</code>", escaped(&frame.words()), escaped(&frame.text))
}

pub fn mode_words(run: bool) -> &'static str {
    if run {
        "RUN"
    } else {
        "fallback"
    }
}
