//! Frames by their fields: what saturn-frame writes of the body of each drawn line, and of each reply.

use crate::events::{Done, Story};
use crate::programs::Programs;
use crate::script::{Kind, Script};
use crate::words;

/// By drawn line: the frame, and the reply.
#[derive(Default)]
pub struct Frames {
    pub bodies: Vec<Option<Frame>>,
    pub replies: Vec<Option<Frame>>,
}

/// A frame as saturn-frame writes it: `sync src=000007 cyc=10`, or `refused 4: FCS`.
#[derive(Clone)]
pub struct Frame {
    pub text: String,
}

/// saturn-frame reads lines of this many characters
const MOST: usize = 1_200;

/// The question for a script's body. saturn-frame leaves off a first and a last 7Eh as flags, so they are put around it here.
fn question(body: &str) -> Option<String> {
    let asked = format!("body 7E{body}7E\n");
    (asked.len() <= MOST + 1).then_some(asked)
}

pub fn frames_of(programs: &Programs, script: &Script, story: &Story) -> Result<Frames, String> {
    let mut asking = Asking::default();
    for (line, event) in script.drawn().zip(&story.events) {
        asking.frames.bodies.push(None);
        asking.frames.replies.push(None);
        if let Some(done) = &event.done {
            asking.ask(line, done);
        }
    }
    let Asking { text, places, mut frames } = asking;
    if text.is_empty() {
        return Ok(frames);
    }
    let mut places = places.into_iter();
    programs.run(
        "saturn_frame",
        |to| to.write_all(text.as_bytes()),
        |line| {
            let (i, whose) = places.next().ok_or("more answers than bodies")?;
            let frame = Some(Frame { text: String::from_utf8_lossy(line).into_owned() });
            match whose {
                Whose::Body => frames.bodies[i] = frame,
                Whose::Reply => frames.replies[i] = frame,
            }
            Ok(())
        },
    )?;
    if places.next().is_some() {
        return Err("saturn_frame: fewer answers than bodies".into());
    }
    Ok(frames)
}

enum Whose {
    Body,
    Reply,
}

/// The questions, and by question which line's body or reply it asks about.
#[derive(Default)]
struct Asking {
    text: String,
    places: Vec<(usize, Whose)>,
    frames: Frames,
}

impl Asking {
    fn ask(&mut self, line: &[u8], done: &Done) {
        let i = self.frames.bodies.len() - 1;
        if done.kind == Kind::Frame {
            let body = String::from_utf8_lossy(&line[2..]);
            match question(&body) {
                Some(question) => {
                    self.text += &question;
                    self.places.push((i, Whose::Body));
                }
                None => self.frames.bodies[i] = Some(too_long(body.len() / 2)),
            }
        }
        if let Some(reply) = &done.reply {
            self.text += &format!("body {reply}\n");
            self.places.push((i, Whose::Reply));
        }
    }
}

fn too_long(bytes: usize) -> Frame {
    Frame { text: format!("a body of {bytes} bytes, longer than saturn-frame reads") }
}

impl Frame {
    /// the first word: the kind, or what is not one
    pub fn kind(&self) -> &str {
        self.text.split(' ').next().unwrap_or("")
    }

    pub fn field(&self, name: &str) -> Option<&str> {
        self.text.split(' ').find_map(|word| word.strip_prefix(name)?.strip_prefix('='))
    }

    /// the kind in words, with the register that a request is about
    pub fn words(&self) -> String {
        let kind = words::kind(self.kind());
        let at = self.field("at").and_then(|at| usize::from_str_radix(at, 16).ok());
        match (self.kind(), at) {
            ("read" | "plain-read", Some(at)) => format!("{kind}, from {}", words::place(at)),
            ("write" | "plain-write", Some(at)) => format!("{kind}, to {}", words::place(at)),
            _ => kind.into(),
        }
    }
}
