//! Wrong lines for the frame program, of each sort that it complains about.

use super::frame_lines::filled;
use super::random::Random;
use crate::script::LINE_MAX;
use crate::spelling::{Kind, KINDS};

const NO_KIND: [&[u8]; 20] = [
    b"",
    b" ",
    b"  ",
    b"\r",
    b"Sync src=000001 cyc=05",
    b"SYNC src=000001 cyc=05",
    b" sync src=000001 cyc=05",
    b"sync\tsrc=000001 cyc=05",
    b"syncs src=000001 cyc=05",
    b"syn src=000001 cyc=05",
    b"sync=000001",
    b"sid2 to=21",
    b"plain to=21",
    b"plain-reads to=21",
    b"BODY 00",
    b"bodY 00",
    b"body\r",
    b"refused 4: FCS",
    b"\0",
    b"\xC3\xA9 \xFF",
];

const NO_BODY: [&[u8]; 14] = [
    b"body",
    b"body 0",
    b"body 000",
    b"body 0G",
    b"body  00",
    b"body 00 ",
    b"body 00 00",
    b"body 00\r",
    b"body 0x",
    b"body -0",
    b"body data=00",
    b"body \xD9\xA1",
    b"body 00\0",
    b"body  ",
];

/// Bodies that are right lines, however short.
const BODIES: [&[u8]; 3] = [b"body ", b"body 00", b"body 7e7E7d7D5e5E7f"];

pub fn fixed(random: &mut Random) -> Vec<Vec<u8>> {
    let mut lines: Vec<Vec<u8>> = Vec::new();
    for list in [&NO_KIND[..], &NO_BODY, &BODIES] {
        lines.extend(list.iter().map(|line| line.to_vec()));
    }
    for length in [LINE_MAX - 1, LINE_MAX, LINE_MAX + 1, LINE_MAX + 2, 5000] {
        lines.push([&b"body "[..], &vec![b'0'; length - 5]].concat());
        lines.push(vec![b'x'; length]);
        let sync = b"sync src=000001 cyc=05".to_vec();
        let room = length - sync.len();
        lines.push([sync, vec![b' '; room]].concat());
    }
    for kind in &KINDS {
        lines.extend(of_kind(random, kind));
    }
    lines
}

fn of_kind(random: &mut Random, kind: &Kind) -> Vec<Vec<u8>> {
    let right = filled(kind, "12", 2);
    let words: Vec<&str> = right.split(' ').collect();
    let mut lines = vec![
        kind.name.to_string(),
        format!("{} ", kind.name),
        format!("{right} "),
        format!("{right} x"),
        format!("{right} {}", words[1]),
        format!("{right}\r"),
    ];
    // The line ends after each word but the last, and each is wrong in some way.
    for place in 1..words.len() {
        lines.push(words[..place].join(" "));
        for word in wrong_words(words[place]) {
            let mut other = words.clone();
            other[place] = &word;
            if random.one_in(2) {
                lines.push(other.join(" "));
            }
        }
    }
    let mut swapped = words.clone();
    swapped.swap(1, words.len() - 1);
    lines.push(swapped.join(" "));
    lines.push(format!("{}  {}", kind.name, words[1..].join(" ")));
    lines.into_iter().map(String::into_bytes).collect()
}

/// A digit too few or too many, no digit, another character, another name or none.
pub fn wrong_words(word: &str) -> Vec<String> {
    let (name, digits) = word.split_once('=').expect("a field");
    let short = &digits[1..];
    vec![
        format!("{name}={short}"),
        format!("{name}={digits}0"),
        format!("{name}={digits}00"),
        format!("{name}="),
        name.to_string(),
        format!("{name}={short}G"),
        format!("{name}={short}\r"),
        format!("{name} ={digits}"),
        format!("{name}= {digits}"),
        format!("{name}=0x{short}"),
        format!("{name}:{digits}"),
        format!("{name}=={short}"),
        format!("{}={digits}", name.to_uppercase()),
        format!("x{name}={digits}"),
        format!("other={digits}"),
        digits.to_string(),
        String::new(),
        format!("{name}={digits}é"),
    ]
}

/// One byte lost, doubled, added or changed: most are wrong, some are other right lines.
pub fn spoilt(random: &mut Random, line: &[u8]) -> Vec<u8> {
    let place = random.below(line.len());
    let (before, behind) = line.split_at(place);
    let added = random.pick(b" =0Fg\rx-\x00\xFF");
    match random.below(4) {
        0 => [before, &behind[1..]].concat(),
        1 => [before, &behind[..1], behind].concat(),
        2 => [before, &[added], behind].concat(),
        _ => [before, &[added], &behind[1..]].concat(),
    }
}
