//! The page as a whole: top, timeline, rows. It is one file, with its style inside and no script.

use crate::events::Story;
use crate::frames::Frames;
use crate::layout::{layout_of, Layout};
use crate::moments::Moments;
use crate::script::{Script, MOST_DRAWN};
use crate::summary::{self, Cycle};
use crate::text::plain;
use crate::timeline::{self, Drawing, HEIGHT, LANES_WIDE};
use crate::words::count;
use crate::{legend, rows, words};

/// What the programs said.
pub struct Answers {
    pub story: Story,
    pub moments: Moments,
    pub frames: Frames,
    pub load: Vec<Cycle>,
    /// the line that saturn-which printed
    pub which: String,
}

/// with more rows the table is laid out row by row
const LONG: usize = 2_000;
const STYLE: &str = include_str!("style.css");
const POLICY: &str = "default-src 'none'; style-src 'unsafe-inline'; base-uri 'none'; form-action 'none'";
const SVG: &str = "xmlns=\"http://www.w3.org/2000/svg\"";
/// for paper: pieces of this width, at most so many
const STRIP: f64 = 1_100.0;
const MOST_STRIPS: usize = 12;

pub fn page_of(script: &Script, answers: &Answers) -> String {
    let mut page = String::from("<!DOCTYPE html>\n<html lang=\"en\" xmlns=\"http://www.w3.org/1999/xhtml\">\n");
    page += &head(script);
    page += "<body>\n";
    page += &summary::header(script, answers);
    page += &timeline_section(script, answers);
    page += &rows_section(script, answers);
    page + "</body>\n</html>\n"
}

fn head(script: &Script) -> String {
    format!(
        "<head>\n<meta charset=\"utf-8\"/>\n<meta http-equiv=\"Content-Security-Policy\" content=\"{POLICY}\"/>\n\
         <meta name=\"viewport\" content=\"width=device-width, initial-scale=1\"/>\n\
         <meta name=\"color-scheme\" content=\"light dark\"/>\n<title>{}</title>\n<style>\n{STYLE}</style>\n</head>\n",
        plain(&script.title)
    )
}

fn timeline_section(script: &Script, answers: &Answers) -> String {
    let layout = layout_of(&answers.story);
    let drawing = timeline::drawing(script, answers, &layout);
    let mut made = String::from("<section id=\"timeline\">\n<h2>Timeline</h2>\n");
    made += &legend::legend(answers);
    made += &format!("<svg {SVG} class=\"hatch\" width=\"0\" height=\"0\"><defs>{HATCH}</defs></svg>\n");
    made += &format!("<div class=\"figure\">\n<svg {SVG} class=\"lanes\" width=\"{LANES_WIDE}\" height=\"{HEIGHT}\">");
    made += &format!("<g id=\"lanes\">{}</g></svg>\n", timeline::lanes());
    made += &format!("<div class=\"scroll\" tabindex=\"0\" role=\"group\" aria-label=\"timeline\"><svg {SVG} id=\"drawing\" ");
    made +=
        &format!("width=\"{:.0}\" height=\"{HEIGHT}\"><g id=\"all\">\n{}</g></svg></div>\n</div>\n", layout.width, drawing.made);
    made += &strips(&layout, &drawing);
    made += &format!("<p id=\"clock\">{}</p>\n", clock(answers, drawing.ends));
    made + "</section>\n"
}

/// Fallback is hatched, so that the band can be read without colour.
const HATCH: &str = "<pattern id=\"hatch\" width=\"6\" height=\"6\" patternUnits=\"userSpaceOnUse\" \
    patternTransform=\"rotate(45)\">\
    <rect class=\"hatch-ground\" width=\"6\" height=\"6\"/><path class=\"hatch-line\" d=\"M0 0v6\"/></pattern>";

fn strips(layout: &Layout, drawing: &Drawing) -> String {
    let strips = layout.strips(STRIP, &drawing.labels);
    if strips.len() > MOST_STRIPS {
        return "<p class=\"paper\">The timeline is too long for paper; it can be scrolled on the screen.</p>\n".into();
    }
    let mut made = String::new();
    for (from, to) in strips {
        let wide = to - from;
        made += &format!("<svg {SVG} class=\"strip\" viewBox=\"-{LANES_WIDE} 0 {} {HEIGHT}\">", STRIP + LANES_WIDE);
        made += &format!("<use href=\"#lanes\" x=\"-{LANES_WIDE}\"/>");
        made += &format!("<svg width=\"{wide:.1}\" height=\"{HEIGHT}\" viewBox=\"{from:.1} 0 {wide:.1} {HEIGHT}\">");
        made += "<use href=\"#all\"/></svg></svg>\n";
    }
    made
}

fn clock(answers: &Answers, drawn: usize) -> String {
    let known = answers.moments.clock.len();
    let cycles = count(known as u64, "cycle", "cycles");
    let mut made = match answers.story.lines > MOST_DRAWN as u64 {
        true => format!("In the lines that are drawn the clock ended {cycles}"),
        false => format!("The clock ended {cycles}"),
    };
    if drawn < known {
        let drawn = words::grouped(drawn as u64);
        made += &format!("; {drawn} of these ends are drawn, the others would stand closer than 3 pixels");
    }
    made += ".";
    if answers.moments.whole > 0 {
        let lines = count(answers.moments.whole, "line", "lines");
        made += &format!(" Those in {lines} with too many ticks to be played one at a time are neither counted nor drawn.");
    }
    made
}

fn rows_section(script: &Script, answers: &Answers) -> String {
    let mut made = String::from("<section id=\"rows\">\n<h2>Lines</h2>\n");
    if answers.story.lines == 0 {
        made += "<p>The script has no lines.</p>\n";
    }
    made += "<input type=\"checkbox\" id=\"only\"/>\n<label for=\"only\">Show refused and BAD lines alone</label>\n";
    let class = if answers.story.events.len() > LONG { " class=\"long\"" } else { "" };
    made += &format!("<table id=\"lines\"{class}>\n");
    made += "<thead><tr><th>line</th><th>ms</th><th>port</th><th>what</th><th>answer</th>\
             <th>mode, CYC</th><th>changes</th><th>reply</th></tr></thead>\n<tbody>\n";
    made += &rows::rows(script, answers);
    made += "</tbody>\n</table>\n";
    made + &summary::rest(&answers.story) + "</section>\n"
}
