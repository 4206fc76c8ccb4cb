//! Where each drawn line stands on the axis. A line with ticks is as wide as its time; a frame or a BAD line has a place of its
//! own.

use crate::events::{Event, Story};
use crate::moments::Moment;

pub struct Layout {
    /// from and to, for each line
    pub spans: Vec<(f64, f64)>,
    pub width: f64,
    /// pixels of a millisecond
    pub scale: f64,
    ticks: Vec<u64>,
}

const PLACE: f64 = 18.0;
/// with room for the word
const BAD_PLACE: f64 = 30.0;
pub const MARGIN: f64 = 10.0;
/// after the last line: room for the band of the mode in which the script ends, and for the last label of the axis
const AFTER: f64 = 50.0;
const LEAST_WIDE: f64 = 300.0;
/// how far before its full width a strip may end
const STEP_BACK: f64 = 80.0;
/// a line with ticks is at least this wide
const LEAST: f64 = 7.0;

pub fn layout_of(story: &Story) -> Layout {
    let ticks: Vec<u64> = story.events.iter().map(|event| event.end() - event.start).collect();
    let places = story.events.iter().zip(&ticks).filter_map(|(event, n)| place(event, *n)).sum();
    let scale = scale_of(ticks.iter().sum(), places);
    let mut at = MARGIN;
    let mut spans = Vec::with_capacity(ticks.len());
    for (event, n) in story.events.iter().zip(&ticks) {
        let wide = place(event, *n).unwrap_or((*n as f64 * scale).max(LEAST));
        spans.push((at, at + wide));
        at += wide;
    }
    Layout { spans, width: at.max(LEAST_WIDE) + AFTER, scale, ticks }
}

/// The width of a frame or a BAD line; none for a line with ticks.
fn place(event: &Event, ticks: u64) -> Option<f64> {
    match (&event.done, ticks) {
        (None, _) => Some(BAD_PLACE),
        (_, 0) => Some(PLACE),
        _ => None,
    }
}

/// A short script fills a screen, places of frames included, at most 4 pixels a millisecond; a long one is scrolled, up to 12,000
/// pixels of time.
fn scale_of(time: u64, places: f64) -> f64 {
    let time = time.max(1) as f64;
    let screen = (1_050.0 - places).max(500.0);
    (screen / time).max(0.25_f64.min(12_000.0 / time)).min(4.0)
}

impl Layout {
    /// A frame stands in the middle of its place, a tick at its end.
    pub fn x(&self, moment: Moment) -> f64 {
        let Some((from, to)) = self.spans.get(moment.line) else {
            return MARGIN;
        };
        match self.ticks[moment.line] {
            0 => (from + to) / 2.0,
            n => from + (to - from) * moment.after as f64 / n as f64,
        }
    }

    pub fn end(&self) -> f64 {
        self.spans.last().map_or(MARGIN, |(_, to)| *to).max(LEAST_WIDE)
    }

    /// The drawing cut into pieces of at most this width: shortly before it where a line starts, else where no label stands.
    pub fn strips(&self, most: f64, labels: &[(f64, f64)]) -> Vec<(f64, f64)> {
        let free = |x: &f64| !labels.iter().any(|(from, to)| from < x && x < to);
        let mut strips = Vec::new();
        let mut start = 0.0;
        while self.width > start + most {
            let limit = start + most;
            let near = limit - STEP_BACK..=limit;
            let at_line = self.spans.iter().rev().map(|(from, _)| *from).find(|x| near.contains(x) && free(x));
            let at_any = || (0..STEP_BACK as u32).map(|back| limit - f64::from(back)).find(free);
            let end = at_line.or_else(at_any).unwrap_or(limit);
            strips.push((start, end));
            start = end;
        }
        strips.push((start, self.width));
        strips
    }
}

#[cfg(test)]
mod tests {
    use super::*;

    #[test]
    fn strips_end_at_lines_and_beside_labels() {
        let spans = vec![(10.0, 950.0), (950.0, 968.0), (968.0, 4_000.0)];
        let layout = Layout { spans, width: 4_050.0, scale: 1.0, ticks: vec![940, 0, 3_032] };
        let ends: Vec<_> = layout.strips(1_000.0, &[(960.0, 990.0), (1_940.0, 1_960.0)]).iter().map(|(_, to)| *to).collect();
        assert_eq!(ends, [950.0, 1_940.0, 2_940.0, 3_940.0, 4_050.0]);
    }
}
