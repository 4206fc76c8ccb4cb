//! The mark of each drawn line on the timeline: its sign in the lane of its kind, and its number below if it is refused.

use crate::events::{Done, Event};
use crate::frames::Frame;
use crate::layout::Layout;
use crate::script::Kind;
use crate::text::escaped;
use crate::{shapes, words};

/// The middles of the lanes, from the top.
pub const TICKS: f64 = 60.0;
pub const SYNCS: f64 = 94.0;
pub const REQUESTS: f64 = 116.0;
pub const OTHERS: f64 = 138.0;
pub const REFUSED: f64 = 162.0;

pub struct Marks<'a> {
    pub layout: &'a Layout,
    pub sources: &'a [&'a str],
}

impl Marks<'_> {
    pub fn mark(&self, i: usize, event: &Event, port: &str, frame: Option<&Frame>) -> String {
        let line = i + 1;
        let (from, to) = self.layout.spans[i];
        let title = escaped(&title(line, event, port, frame));
        let (class, drawn) = match (&event.done, frame) {
            (Some(done), None) => bar(done, from, to),
            (_, frame) => self.signs(event, from, to, frame),
        };
        let refused = if event.refused() { " refused" } else { "" };
        format!("<a id=\"M{line}\" class=\"{class}{refused}\" href=\"#L{line}\"><title>{title}</title>{drawn}</a>\n")
    }

    /// The signs of a frame or a BAD line, over a field that takes the click.
    fn signs(&self, event: &Event, from: f64, to: f64, frame: Option<&Frame>) -> (&'static str, String) {
        let (x, wide) = ((from + to) / 2.0, to - from);
        let mut drawn = format!("<path class=\"field\" d=\"M{from:.1} 83h{wide}v90h-{wide}z\"/>");
        let mut class = "bad";
        if let Some(frame) = frame {
            let (kind, lane, letter) = sign(frame);
            class = kind;
            let source = frame.field("src").unwrap_or("");
            let shape = if letter.is_empty() { shapes::concentrator(self.sources, source) } else { shapes::BOX };
            drawn += &placed("shape", x, lane, shape);
            if !letter.is_empty() {
                drawn += &label("letter", x, lane, letter);
            }
        }
        let (number, shape) = match &event.done {
            Some(done) if done.answer != 0 => (done.answer.to_string(), shapes::NUMBER),
            Some(_) => return (class, drawn),
            None => ("BAD".into(), shapes::BAD),
        };
        drawn += &placed("box", x, REFUSED, shape);
        drawn += &label("number", x, REFUSED, &number);
        (class, drawn)
    }
}

/// How a frame is drawn: its class, its lane, and its letter; a sync has none, but a shape.
pub fn sign(frame: &Frame) -> (&'static str, f64, &'static str) {
    match frame.kind() {
        "sync" => ("sync", SYNCS, ""),
        "read" => ("read", REQUESTS, "R"),
        "write" => ("write", REQUESTS, "W"),
        "plain-read" | "plain-write" => ("other", REQUESTS, "N"),
        "tid" => ("other", OTHERS, "T"),
        "sid" | "sid4" => ("other", OTHERS, "S"),
        kind if words::kind(kind) == words::kind("") => ("unread", OTHERS, "?"),
        _ => ("other", OTHERS, "O"),
    }
}

fn title(line: usize, event: &Event, port: &str, frame: Option<&Frame>) -> String {
    let Some(done) = &event.done else {
        return format!("line {line} at {} ms: BAD", event.start);
    };
    let answer = words::answer(done.answer);
    match frame {
        Some(frame) => format!("line {line} at {} ms, port {port}: {}. {} {answer}", event.start, frame.text, done.answer),
        None => {
            let ticks = words::count(done.kind.ticks(), "tick", "ticks");
            let inputs = if done.kind == Kind::Inputs { ", with inputs" } else { "" };
            format!("line {line} from {} ms to {} ms: {ticks}{inputs}", event.start, event.end())
        }
    }
}

/// A line with ticks is a bar as long as its time; with inputs it is higher.
fn bar(done: &Done, from: f64, to: f64) -> (&'static str, String) {
    let (class, high) = if done.kind == Kind::Inputs { ("inputs", 18.0) } else { ("ticks", 10.0) };
    let wide = to - from - 1.0;
    (class, format!("<path class=\"bar\" d=\"M{from:.1} {:.1}h{wide:.1}v{high}h-{wide:.1}z\"/>", TICKS - high / 2.0))
}

pub fn placed(class: &str, x: f64, y: f64, shape: &str) -> String {
    format!("<path class=\"{class}\" transform=\"translate({x:.1} {y})\" d=\"{shape}\"/>")
}

pub fn label(class: &str, x: f64, y: f64, text: &str) -> String {
    format!("<text class=\"{class}\" x=\"{x:.1}\" y=\"{:.1}\">{text}</text>", y + 3.6)
}
