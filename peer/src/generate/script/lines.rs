//! Lines that are not frames, or on no port: BAD ones, and answers of 21.

use super::faults::good;
use super::stage::Stage;

pub const WRONG: [&[u8]; 58] = [
    b"",
    b" ",
    b"\r",
    b"T",
    b"T ",
    b"T 0",
    b"T 00",
    b"T 01",
    b"T 007",
    b"T 60001",
    b"T 60010",
    b"T 99999",
    b"T 060000",
    b"T 600000",
    b"T 4294967297",
    b"T 18446744073709551617",
    b"T -1",
    b"T +1",
    b"T 1.0",
    b"T 1 ",
    b"T  1",
    b" T 1",
    b"T 1\r",
    b"T\t1",
    b"T1",
    b"T 1a",
    b"T A",
    b"TT 1",
    b"t 1",
    b"t 255",
    b"T 1 2",
    b"1",
    b"2",
    b"0",
    b"1 0",
    b"1 000",
    b"1 0G",
    b"1 G0",
    b"1  00",
    b"1 00 ",
    b"1 00\r",
    b"1 \r",
    b"1\t00",
    b"100",
    b"1 00 00",
    b" 1 00",
    b"11 00",
    b"12 00",
    b"A 00",
    b"a 00",
    b"-1 00",
    b"+1 00",
    b"1 0x",
    b"I",
    b"I ",
    b"i ",
    b"I 00",
    b"BAD",
];

/// Bytes that are not text.
pub const NO_TEXT: [&[u8]; 8] = [
    b"\0",
    b"1 00\0",
    b"\0T 1",
    b"T 1\0",
    b"\xFF\xFE",
    b"1 \xC3\xA9",
    b"T \xD9\xA1",
    b"\x80 00",
];

pub fn bad(stage: &mut Stage) {
    for _ in 0..5 {
        let line = stage.next_of("wrong lines", &WRONG).to_vec();
        stage.line(line);
    }
    match stage.random.below(3) {
        0 => no_text(stage),
        1 => inputs(stage),
        _ => damaged(stage),
    }
}

fn no_text(stage: &mut Stage) {
    let line = stage.next_of("no text", &NO_TEXT).to_vec();
    stage.line(line);
}

/// Input lines with the wrong letter, a digit too few or too many, or another character.
fn inputs(stage: &mut Stage) {
    for digits in [126, 127, 129, 130] {
        stage.line([b"I ", &vec![b'5'; digits][..]].concat());
    }
    let digits = [b'A'; 128];
    let mut other = digits;
    other[stage.random.below(128)] = stage.random.pick(b"gG -\r");
    stage.line([b"i ", &digits[..]].concat());
    stage.line([b"I", &digits[..]].concat());
    stage.line([b"I ", &other[..]].concat());
    stage.line([b"I ", &digits[..], b"\r"].concat());
}

/// A good frame line with one character lost, added or changed.
fn damaged(stage: &mut Stage) {
    let body = good(stage).body();
    let line = format!("1 {}", crate::hex::encode(&body)).into_bytes();
    let place = stage.random.below(line.len());
    let mut changed = line.clone();
    changed[place] = stage.random.pick(b"gZ .\r\xFF");
    let lost = [&line[..place], &line[place + 1..]].concat();
    let added = [&line[..place], b"0", &line[place..]].concat();
    for line in [changed, lost, added, [&line[..], b"\r"].concat()] {
        stage.line(line);
    }
}

/// At the limit of length and beyond it. Those of 1,200 characters are read.
pub fn long(stage: &mut Stage) {
    for length in [1198, 1199, 1200, 1201, 1202, 1300] {
        let port = stage.random.pick(b"12");
        let mut line = vec![b'3'; length];
        line[0] = port;
        line[1] = b' ';
        stage.line(line);
    }
    let beyond = stage.random.pick(&[2402, 4000, 9000]);
    stage.line(vec![b'1'; beyond]);
    stage.line([b"T 1", &vec![b' '; 1198][..]].concat());
}

/// One line longer than any buffer, then a good line.
pub fn huge(stage: &mut Stage) {
    stage.line([b"1 ", &vec![b'0'; 70_000][..]].concat());
    stage.ticks(1);
}

/// The digits 0 and 3 to 9, with bodies good and bad.
pub fn ports(stage: &mut Stage) {
    let body = good(stage).body();
    for _ in 0..2 {
        let port = stage.random.pick(&[0, 3, 3, 4, 5, 6, 7, 8, 9]);
        let length = stage.random.pick(&[0, 1, 6, body.len(), body.len()]);
        stage.say_on(port, &body[..length]);
    }
    // An empty body.
    let port = stage.random.pick(&[1, 2, 9]);
    stage.say_on(port, &[]);
}
