//! The frame program: a frame by its kind and fields becomes a body, a body becomes that line.
//! A list of such lines, with ports, ticks and comments, becomes a script.

mod kinds;
mod line;
mod values;

pub use kinds::{grammar, Kind, KINDS};
pub use line::{parse, Line, Question, Spelled};

use crate::frame::{self, Frame, Received};
use crate::hex;
use crate::module::REPLY_ROOM;
use crate::refusal::Refusal;
use crate::script::Lines;
use crate::stuffing::FLAG;
use std::io::{self, Read, Write};

pub fn run(input: impl Read, mut output: impl Write) -> io::Result<()> {
    let mut lines = Lines::new(input);
    let mut number = 0_u64;
    loop {
        if lines.would_wait() {
            output.flush()?;
        }
        let Some(line) = lines.next_line()? else {
            break;
        };
        number += 1;
        print(&mut output, number, line)?;
    }
    if number == 0 {
        output.write_all(grammar().as_bytes())?;
    }
    output.flush()
}

fn print(output: &mut impl Write, number: u64, line: &[u8]) -> io::Result<()> {
    match parse(line) {
        Ok(Line::Nothing) => Ok(()),
        Ok(Line::Script(line)) => {
            output.write_all(line)?;
            writeln!(output)
        }
        Ok(Line::Question(port, question)) => {
            output.write_all(port)?;
            writeln!(output, "{}", answer(&question))
        }
        Err(complaint) => writeln!(output, "{number} BAD: {complaint}"),
    }
}

fn answer(question: &Question) -> String {
    let outcome = match question {
        Question::Frame(spelled) => body_of(spelled).map(|body| hex::encode(&body)),
        Question::Body(body) => frame::read(between_flags(body)).map(|received| spell(&received)),
    };
    outcome.unwrap_or_else(|refusal| format!("refused {}: {}", refusal.number(), words(refusal)))
}

/// Without the two flags, if both are there, as in a reply that a trace shows.
fn between_flags(body: &[u8]) -> &[u8] {
    match body {
        [FLAG, inner @ .., FLAG] => inner,
        _ => body,
    }
}

/// The body without its flags.
fn body_of(spelled: &Spelled) -> Result<Vec<u8>, Refusal> {
    let (address, frame) = values::frame_of(spelled);
    let mut buffer = [0; REPLY_ROOM];
    let length = frame::write(address, &frame, &spelled.data, &mut buffer)?;
    Ok(buffer[1..length - 1].to_vec())
}

pub fn spell(received: &Received) -> String {
    spell_frame(received.address, &received.frame, &received.data)
}

/// The line of a frame, digits in capitals.
pub fn spell_frame(address: u8, frame: &Frame, data: &[u8]) -> String {
    let (kind, values) = values::values_of(address, frame);
    let mut text = kind.name.to_string();
    for (field, value) in kind.fields.iter().zip(values) {
        text += &format!(" {}={value:0width$X}", field.name, width = field.digits);
    }
    if kind.with_data {
        text += &format!(" data={}", hex::encode(data));
    }
    text
}

fn words(refusal: Refusal) -> &'static str {
    match refusal {
        Refusal::BodySize => "body not 7 to 543 bytes",
        Refusal::Stuffing => "stuffing",
        Refusal::UnstuffedSize => "unstuffed length not 7 to 272",
        Refusal::Fcs => "FCS",
        Refusal::ReservedAddress => "reserved address",
        Refusal::UnknownTyp => "TYP not built",
        Refusal::Form => "length, COM or sync address wrong for the TYP",
        Refusal::SafetyCrc => "safety CRC",
        other => unreachable!("neither reader nor writer of frames refuses with {other:?}"),
    }
}
