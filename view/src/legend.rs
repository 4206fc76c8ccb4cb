//! The legend of the timeline: what the signs stand for. Only those that occur are listed.

use crate::changes::Change;
use crate::events::Story;
use crate::marks::{self, label, placed};
use crate::page::Answers;
use crate::script::Kind;
use crate::shapes;
use crate::text::escaped;

/// class, letter, and what it stands for
const LETTERS: [(&str, &str, &str); 7] = [
    ("read", "R", "read request"),
    ("write", "W", "write request"),
    ("other", "N", "non-safe request"),
    ("other", "T", "TID assignment"),
    ("other", "S", "SID assignment"),
    ("other", "O", "another frame"),
    ("unread", "?", "not a frame"),
];

pub fn legend(answers: &Answers) -> String {
    let mut made = String::from("<ul id=\"legend\">\n");
    let sources = shapes::sources(answers);
    for (i, source) in sources.iter().enumerate() {
        let who = if i < 8 { format!("sync of <code>{}</code>", escaped(source)) } else { "syncs of all others".into() };
        made += &item("sync", &placed("shape", 0.0, 0.0, shapes::concentrator(&sources, source)), &who);
    }
    for (class, letter, words) in LETTERS {
        if answers.frames.bodies.iter().flatten().any(|frame| marks::sign(frame).2 == letter) {
            made += &item(class, &(placed("shape", 0.0, 0.0, shapes::BOX) + &label("letter", 0.0, 0.0, letter)), words);
        }
    }
    made + &others(&answers.story) + "</ul>\n"
}

/// What is not the sign of a frame.
fn others(story: &Story) -> String {
    let done = || story.events.iter().filter_map(|event| event.done.as_ref());
    let number = placed("box", 0.0, 0.0, shapes::NUMBER) + &label("number", 0.0, 0.0, "n");
    let mut made = String::new();
    for (occurs, class, drawn, words) in [
        (done().any(|d| d.answer != 0), "refused", number, "refused with n; its sign is red"),
        (
            done().any(|d| d.changes.iter().any(Change::of_outputs)),
            "outputs",
            placed("shape", 0.0, 0.0, shapes::OUTPUTS),
            "outputs change",
        ),
        (done().any(|d| matches!(d.kind, Kind::Ticks(_))), "ticks", placed("bar", 0.0, 0.0, shapes::TICKS), "ticks"),
        (done().any(|d| d.kind == Kind::Inputs), "inputs", placed("bar", 0.0, 0.0, shapes::INPUTS), "a tick with inputs"),
    ] {
        if occurs {
            made += &item(class, &drawn, words);
        }
    }
    made
}

fn item(class: &str, drawn: &str, words: &str) -> String {
    let open = format!("<svg xmlns=\"http://www.w3.org/2000/svg\" class=\"sign {class}\" viewBox=\"-9 -9 18 18\">");
    format!("<li>{open}{drawn}</svg> {words}</li>\n")
}
