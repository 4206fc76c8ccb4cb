//! The timeline: lanes over milliseconds, from the axis at the top to the line load at the bottom.

use crate::layout::{Layout, MARGIN};
use crate::marks::{self, Marks};
use crate::moments::{self, Moment};
use crate::page::Answers;
use crate::script::Script;
use crate::text::escaped;
use crate::{shapes, words};

pub const HEIGHT: f64 = 282.0;
/// the column with the names of the lanes
pub const LANES_WIDE: f64 = 112.0;
const MODE: f64 = 26.0;
const MODE_HIGH: f64 = 22.0;
const CLOCK: f64 = 70.0;
const OUTPUTS: f64 = 186.0;
/// the bars of the line load stand on this line, and 1,000 thousandths are this high
const LOAD: f64 = 272.0;
const LOAD_HIGH: f64 = 64.0;

/// The names of the lanes, beside the drawing.
const LANES: [(&str, f64); 9] = [
    ("ms", 15.0),
    ("mode", MODE + MODE_HIGH / 2.0),
    ("ticks", marks::TICKS),
    ("cycle ends", CLOCK + 5.0),
    ("syncs", marks::SYNCS),
    ("requests", marks::REQUESTS),
    ("other frames", marks::OTHERS),
    ("refused", marks::REFUSED),
    ("outputs change", OUTPUTS),
];

pub struct Drawing {
    pub made: String,
    /// from where to where labels stand that a strip should not cut
    pub labels: Vec<(f64, f64)>,
    /// ends of cycles that are drawn
    pub ends: usize,
}

pub fn drawing(script: &Script, answers: &Answers, layout: &Layout) -> Drawing {
    let mut drawing = Drawing { made: guides(layout), labels: Vec::new(), ends: 0 };
    drawing.axis(answers, layout);
    drawing.mode(answers, layout);
    drawing.clock(answers, layout);
    drawing.load(answers, layout);
    drawing.made += &line_marks(script, answers, layout);
    drawing.made += &outputs(answers, layout);
    drawing
}

pub fn lanes() -> String {
    let mut made = String::new();
    let load = ["line load,", "thousandths"];
    for (name, y) in LANES {
        made += &marks::label("lane", 0.0, y, name);
    }
    for (name, y) in load.iter().zip([LOAD - LOAD_HIGH / 2.0, LOAD - LOAD_HIGH / 2.0 + 14.0]) {
        made += &marks::label("lane", 0.0, y, name);
    }
    made + &marks::label("lane end", LANES_WIDE - 6.0, LOAD - LOAD_HIGH, "1,000")
        + &marks::label("lane end", LANES_WIDE - 6.0, LOAD - 3.0, "0")
}

/// Lines between the lanes, and the two ends of the scale of the load.
fn guides(layout: &Layout) -> String {
    let mut made = String::new();
    for y in [83.0, 105.0, 127.0, 149.0, 174.0, 198.0] {
        made += &format!("<path class=\"guide\" d=\"M0 {y}H{:.1}\"/>", layout.width);
    }
    let full = LOAD - LOAD_HIGH;
    made + &format!("<path class=\"scale\" d=\"M0 {full}H{w:.1}M0 {LOAD}H{w:.1}\"/>\n", w = layout.width)
}

impl Drawing {
    /// Milliseconds where lines with ticks start and end, and between them in round steps; none too close to the one before.
    fn axis(&mut self, answers: &Answers, layout: &Layout) {
        let step = round_step(80.0 / layout.scale);
        let mut last = f64::MIN;
        for (i, event) in answers.story.events.iter().enumerate().filter(|(_, event)| event.end() > event.start) {
            let (from, to) = layout.spans[i];
            self.made += &format!("<path class=\"axis\" d=\"M{from:.1} 22H{to:.1}\"/>");
            let rounds = (event.start / step + 1..).map(|k| k * step).take_while(|ms| *ms < event.end());
            for ms in std::iter::once(event.start).chain(rounds).chain([event.end()]) {
                let x = layout.x(Moment { line: i, after: ms - event.start });
                if x >= last + 58.0 {
                    self.made += &format!("<path class=\"axis\" d=\"M{x:.1} 18v8\"/>");
                    self.label("ms", x, 11.0, &ms.to_string());
                    last = x;
                }
            }
        }
        self.made += "\n";
    }

    /// The band of the mode: fallback is hatched, RUN is plain, and both are named where there is room. The last one goes on after
    /// the last line, so that the mode in which the script ends is seen.
    fn mode(&mut self, answers: &Answers, layout: &Layout) {
        let bands = moments::bands(answers.story.begins, &answers.moments);
        let events = &answers.story.events;
        let time = |moment: Moment| events.get(moment.line).map_or(0, |event| event.start) + moment.after;
        let last = (layout.end() + 24.0, events.last().map_or(0, |event| event.end()));
        for (i, (from, run)) in bands.iter().enumerate() {
            let x = if i == 0 { MARGIN } else { layout.x(*from) };
            let (to, until) = bands.get(i + 1).map_or(last, |(next, _)| (layout.x(*next), time(*next)));
            let (class, name, room) = if *run { ("run", "RUN", 34.0) } else { ("fallback", "fallback", 58.0) };
            let wide = to - x;
            self.made +=
                &format!("<rect class=\"mode {class}\" x=\"{x:.1}\" y=\"{MODE}\" width=\"{wide:.1}\" height=\"{MODE_HIGH}\">");
            self.made += &format!("<title>{name} from {} ms to {until} ms</title></rect>", time(*from));
            if wide >= room + 6.0 {
                let y = MODE + MODE_HIGH / 2.0;
                self.made +=
                    &format!("<rect class=\"plate\" x=\"{:.1}\" y=\"{}\" width=\"{room}\" height=\"16\"/>", x + 3.0, y - 8.0);
                self.label("name", x + 6.0, y, name);
            }
        }
        self.made += "\n";
    }

    /// The ends of cycles by the clock, no two closer than 3 pixels.
    fn clock(&mut self, answers: &Answers, layout: &Layout) {
        let mut last = f64::MIN;
        for moment in &answers.moments.clock {
            let x = layout.x(*moment);
            if x < last + 3.0 {
                continue;
            }
            let ms = answers.story.events[moment.line].start + moment.after;
            self.made += &format!("<path class=\"clock\" d=\"M{x:.1} {CLOCK}v11\">");
            self.made += &format!("<title>{ms} ms: the clock ends the cycle</title></path>");
            self.ends += 1;
            last = x;
        }
        self.made += "\n";
    }

    /// The load of each cycle, from the sync that opens it to the next one.
    fn load(&mut self, answers: &Answers, layout: &Layout) {
        let top = LOAD - LOAD_HIGH;
        for (i, cycle) in answers.load.iter().enumerate() {
            let from = layout.spans[cycle.line - 1].0;
            let to = answers.load.get(i + 1).map_or(layout.end(), |next| layout.spans[next.line - 1].0);
            let wide = (to - from - 1.0).max(1.0);
            let high = (cycle.thousandths.min(1_000) as f64 * LOAD_HIGH / 1_000.0).max(1.0);
            let class = if cycle.thousandths > 1_000 { "load over" } else { "load" };
            let said = format!("{} thousandths, remainder {}: the cycle from line {}", cycle.thousandths, cycle.rest, cycle.line);
            self.made += &format!("<a class=\"{class}\" href=\"#L{}\"><title>{said}</title>", cycle.line);
            self.made += &format!("<path class=\"field\" d=\"M{from:.1} {top}h{wide:.1}V{LOAD}h-{wide:.1}z\"/>");
            self.made += &format!("<path class=\"bar\" d=\"M{from:.1} {:.1}h{wide:.1}V{LOAD}h-{wide:.1}z\"/>", LOAD - high);
            let number = words::grouped(cycle.thousandths);
            if wide >= 7.0 * number.len() as f64 {
                self.label("thousandths", from + wide / 2.0, LOAD - high - 7.0, &number);
            }
            self.made += "</a>\n";
        }
    }

    fn label(&mut self, class: &str, x: f64, y: f64, text: &str) {
        self.made += &marks::label(class, x, y, text);
        // some 7 pixels a character, to the right of x or on both sides
        let wide = 7.0 * text.len() as f64;
        self.labels.push((x - if class == "thousandths" { wide / 2.0 } else { 4.0 }, x + wide));
    }
}

/// 1, 2 or 5 times a power of ten
fn round_step(least: f64) -> u64 {
    let mut step = 1_u64;
    loop {
        for times in [1, 2, 5] {
            if (step * times) as f64 >= least {
                return step * times;
            }
        }
        step *= 10;
    }
}

fn line_marks(script: &Script, answers: &Answers, layout: &Layout) -> String {
    let sources = shapes::sources(answers);
    let marks = Marks { layout, sources: &sources };
    let mut made = String::new();
    for (i, (line, event)) in script.drawn().zip(&answers.story.events).enumerate() {
        let frame = answers.frames.bodies[i].as_ref();
        let port = if frame.is_some() { char::from(line[0]).to_string() } else { String::new() };
        made += &marks.mark(i, event, &port, frame);
    }
    made
}

/// Where outputs changed: at the frame that wrote them, or when the mode changed inside a line with ticks.
fn outputs(answers: &Answers, layout: &Layout) -> String {
    let mut made = String::new();
    let mut modes = answers.moments.modes.iter().peekable();
    for (i, event) in answers.story.events.iter().enumerate() {
        while modes.peek().is_some_and(|m| m.moment.line < i) {
            modes.next();
        }
        let changes = event.done.iter().flat_map(|done| &done.changes).filter(|change| change.of_outputs());
        let words: Vec<_> = changes.map(|change| change.words()).collect();
        if words.is_empty() {
            continue;
        }
        let after = modes.peek().filter(|m| m.moment.line == i).map_or(event.end() - event.start, |m| m.moment.after);
        let x = layout.x(Moment { line: i, after });
        let title = escaped(&words.join("; "));
        let sign = marks::placed("shape", x, OUTPUTS, shapes::OUTPUTS);
        made += &format!("<a class=\"outputs\" href=\"#L{}\"><title>{title}</title>{sign}</a>\n", i + 1);
    }
    made
}
