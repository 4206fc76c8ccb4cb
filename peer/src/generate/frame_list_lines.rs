//! Lines of lists for the frame program: comments, a script's own lines, ports before frames and
//! bodies, and bodies with flags.

use super::draft::Draft;
use super::frame_line_faults as faults;
use super::frame_lines::{filled, of_case, some_frame, there_and_back};
use super::line::recase;
use super::random::Random;
use super::{body_reading, frame_reading, sample};
use crate::cases;
use crate::hex;
use crate::script::LINE_MAX;
use crate::spelling::{Kind, KINDS};

/// Nothing is printed for these; but the third is no comment.
const COMMENTS: [&[u8]; 14] = [
    b"#",
    b"# text",
    b" #",
    b"",
    b"##",
    b"# ",
    b"#text",
    b"#1 00",
    b"# T 5",
    b"# sync src=000001 cyc=05",
    b"#\r",
    b"#\t\0",
    b"# \xC3\xA9 \xFF",
    b"# 1 BAD: no such kind",
];

/// The first word is T or I.
const PASSED: [&[u8]; 20] = [
    b"T",
    b"T ",
    b"T  ",
    b"T 5",
    b"T 255",
    b"T 60000",
    b"T 60001",
    b"T 05",
    b"T  5",
    b"T x",
    b"T 5\r",
    b"T T",
    b"T \xFF\0",
    b"T sync src=000001 cyc=05",
    b"I",
    b"I ",
    b"I 0",
    b"I 00",
    b"I inputs",
    b"I \x80\r",
];

/// They only look like that.
const NOT_PASSED: [&[u8]; 20] = [
    b"Tx", b"T5", b"T\t5", b"T\r", b"T\0 5", b"TT 5", b"TI", b"t", b"t 5", b" T", b" T 5", b"T=5",
    b"T# 5", b"Ix", b"I0", b"I\r", b"II 00", b"i", b"i 00", b" I 00",
];

/// What may follow a port digit and its space, though it is no frame and no body.
const BEHIND_A_PORT: [&[u8]; 22] = [
    b"",
    b"00",
    b"7e",
    b"aBcD",
    b"FF00000007FEA2CB1F34",
    b"ff00000007fea2cb1f34",
    b" ",
    b"0",
    b"abc",
    b"0G",
    b"00 ",
    b" 00",
    b"00 00",
    b"00\r",
    b"T 5",
    b"I 00",
    b"# text",
    b"#",
    b"1 00",
    b"Sync src=000001 cyc=05",
    b" sync src=000001 cyc=05",
    b"refused 4: FCS",
];

/// They come again and again between the other lines, as in a list that somebody writes.
const BETWEEN: [&[u8]; 11] = [
    b"", b"#", b"# text", b" #", b"T", b"T 5", b"Tx", b"I", b"I ", b"T ", b"i 00",
];

/// Around the limit of a line.
const LENGTHS: [usize; 6] = [1198, 1199, 1200, 1201, 1202, 3000];

/// How long lines start, and what fills them.
const LONG: [(&[u8], &[u8]); 14] = [
    (b"#", b" "),
    (b"# ", b"text "),
    (b"#1 ", b"00"),
    (b"# \xFF", b"\0\r"),
    (b"T ", b"5"),
    (b"T", b" "),
    (b"T ", b"x\xFF "),
    (b"I ", b"A5"),
    (b"I ", b"x"),
    (b"I", b" "),
    (b"1 ", b"3"),
    (b"2 ", b"aB7e"),
    (b"Tx", b"5"),
    (b" #", b"5"),
];

pub fn fixed(random: &mut Random) -> Vec<Vec<u8>> {
    let mut lines: Vec<Vec<u8>> = Vec::new();
    for list in [&COMMENTS[..], &PASSED, &NOT_PASSED] {
        lines.extend(list.iter().map(|line| line.to_vec()));
    }
    lines.extend([127, 128, 129].map(|digits| [b"I ", &vec![b'5'; digits][..]].concat()));
    for digit in b'0'..=b'9' {
        lines.extend(of_port(digit));
    }
    for kind in &KINDS {
        lines.extend(ported_kind(random, kind));
    }
    lines.extend(ported_bodies(random));
    for length in LENGTHS {
        lines.extend(long(random, length));
    }
    for kind in 0..cases::KINDS {
        lines.extend(flagged_kind(random, kind));
    }
    lines.extend(only_flags());
    lines.extend(flagged_lengths());
    with_others_between(lines)
}

/// One of `BETWEEN`, in turn, after each fourth line.
fn with_others_between(lines: Vec<Vec<u8>>) -> Vec<Vec<u8>> {
    let mut others = BETWEEN.iter().cycle();
    let mut mixed = Vec::new();
    for few in lines.chunks(4) {
        mixed.extend_from_slice(few);
        mixed.extend(others.next().map(|line| line.to_vec()));
    }
    mixed
}

fn of_port(digit: u8) -> Vec<Vec<u8>> {
    let mut lines = vec![
        vec![digit],
        vec![digit, b'\t', b'0', b'0'],
        vec![digit, digit, b' ', b'0', b'0'],
        vec![b' ', digit, b' ', b'0', b'0'],
        [&[digit], &b"sync src=000001 cyc=05"[..]].concat(),
        on_port(digit, b"sync src=000001 cyc=05"),
        on_port(digit, b"body FF00000007FEA2CB1F34"),
        on_port(digit, b"body 7EFF00000007FEA2CB1F347E"),
        on_port(digit, b"body"),
    ];
    lines.extend(BEHIND_A_PORT.map(|text| on_port(digit, text)));
    lines
}

fn on_port(digit: u8, text: &[u8]) -> Vec<u8> {
    [&[digit, b' '], text].concat()
}

fn some_port(random: &mut Random, text: &[u8]) -> Vec<u8> {
    let digit = match random.one_in(3) {
        true => random.pick(b"0123456789"),
        false => random.pick(b"12"),
    };
    on_port(digit, text)
}

/// A port before a right frame, one to a reserved address, some with a wrong field, one with
/// too much after it, and one without fields.
fn ported_kind(random: &mut Random, kind: &Kind) -> Vec<Vec<u8>> {
    let right = filled(kind, "12", 2);
    let mut lines = vec![
        right.clone(),
        filled(kind, "aB", 2),
        right.replace("to=21", "to=7E"),
        format!("{right} "),
        format!("{right} x"),
        kind.name.to_string(),
        format!("{} ", kind.name),
        format!("{}s", kind.name),
    ];
    let words: Vec<&str> = right.split(' ').collect();
    for place in 1..words.len() {
        let wrong = faults::wrong_words(words[place]);
        for _ in 0..2 {
            let mut other = words.clone();
            other[place] = &wrong[random.below(wrong.len())];
            lines.push(other.join(" "));
        }
    }
    lines
        .iter()
        .map(|line| some_port(random, line.as_bytes()))
        .collect()
}

/// Some of the bodies of the case programs, which are read or refused with every number.
fn ported_bodies(random: &mut Random) -> Vec<Vec<u8>> {
    let frames = frame_reading::fixed(random);
    let others = body_reading::fixed(random);
    let frames = frames.iter().step_by(24);
    let others = others.iter().step_by(30);
    frames
        .chain(others)
        .map(|case| some_port(random, of_case(case).as_bytes()))
        .collect()
}

/// Comments, a script's own lines and ported lines of that many characters.
fn long(random: &mut Random, length: usize) -> Vec<Vec<u8>> {
    let fill = |start: &[u8], more: &[u8]| -> Vec<u8> {
        let more = more.iter().cycle();
        start.iter().chain(more).take(length).copied().collect()
    };
    let mut lines: Vec<Vec<u8>> = LONG.iter().map(|(start, more)| fill(start, more)).collect();
    for start in [
        "",
        "",
        "body ",
        "body 7E",
        "sync src=000001 cyc=05",
        "plain-write to=21 src=F0 at=80 data=",
        "write to=21 dest=000001 src=000002 cyc=01 seq=01 at=80 data=",
    ] {
        let digits = random.pick(&[&b"0"[..], b"7E", b"7d"]);
        let port = random.pick(b"0123456789");
        lines.push(fill(&on_port(port, start.as_bytes()), digits));
    }
    lines
}

/// A good body and a damaged one with both flags, with one, with two on each side, and with one
/// inside; on a port now and then.
fn flagged_kind(random: &mut Random, kind: u8) -> Vec<Vec<u8>> {
    let mut lines = Vec::new();
    for datl in [0, 3] {
        let body = Draft::new(random, kind, datl).body();
        let damaged = super::damage::any(random, &body);
        for body in [body, damaged] {
            lines.extend(flagged(random, &body));
        }
    }
    lines
        .into_iter()
        .map(|line| match random.one_in(3) {
            true => some_port(random, &line),
            false => line,
        })
        .collect()
}

fn flagged(random: &mut Random, body: &[u8]) -> Vec<Vec<u8>> {
    let place = random.below(body.len() + 1);
    let inside = [&body[..place], &[0x7E], &body[place..]].concat();
    let around = |body: &[u8]| [&[0x7E], body, &[0x7E]].concat();
    [
        around(body),
        [&[0x7E], body].concat(),
        [body, &[0x7E]].concat(),
        around(&around(body)),
        around(&inside),
    ]
    .map(|bytes| body_line(random, &bytes))
    .to_vec()
}

fn body_line(random: &mut Random, bytes: &[u8]) -> Vec<u8> {
    format!("body {}", recase(random, hex::encode(bytes))).into_bytes()
}

fn only_flags() -> Vec<Vec<u8>> {
    (1..=12)
        .chain([543, 544, 545, 546])
        .map(|flags| format!("body {}", "7e".repeat(flags)).into_bytes())
        .collect()
}

/// Bytes between flags, at the limits of a body's length and past them.
fn flagged_lengths() -> Vec<Vec<u8>> {
    [5, 6, 7, 8, 541, 542, 543, 544, 545, 590]
        .map(|bytes| format!("body 7E{}7E", "11".repeat(bytes)).into_bytes())
        .to_vec()
}

pub fn any(random: &mut Random) -> Vec<u8> {
    match random.below(16) {
        0..=4 => {
            let line = some_frame(random);
            some_port(random, line.as_bytes())
        }
        5 => {
            let [_, line] = there_and_back(random);
            some_port(random, line.as_bytes())
        }
        6 => {
            let case = frame_reading::any(random);
            some_port(random, of_case(&case).as_bytes())
        }
        7 | 8 => {
            let line = some_frame(random);
            let line = some_port(random, line.as_bytes());
            faults::spoilt(random, &line)
        }
        9 | 10 => any_flagged(random),
        11 | 12 => any_script_line(random),
        13 => random.pick(&COMMENTS).to_vec(),
        14 => random.pick(&PASSED).to_vec(),
        _ => any_long(random),
    }
}

fn any_flagged(random: &mut Random) -> Vec<u8> {
    let kind = random.below(cases::KINDS as usize) as u8;
    let datl = sample::datl(random);
    let body = Draft::new(random, kind, datl).body();
    let lines = flagged(random, &body);
    // The first has both flags and nothing else.
    match random.one_in(3) {
        true => lines[random.below(lines.len())].clone(),
        false => lines[0].clone(),
    }
}

/// A port and a body in hex digits, or one digit less.
fn any_script_line(random: &mut Random) -> Vec<u8> {
    let case = frame_reading::any(random);
    let digits = recase(random, case[2..].to_string());
    let end = match random.one_in(6) {
        true => digits.len().saturating_sub(1),
        false => digits.len(),
    };
    some_port(random, &digits.as_bytes()[..end])
}

fn any_long(random: &mut Random) -> Vec<u8> {
    let length = LINE_MAX - 1 + random.below(3);
    let lines = long(random, length);
    lines[random.below(lines.len())].clone()
}
