//! A script without the lines that are struck: what is left prints the same texts, numbered anew.

use super::marked::Marked;
use super::printed::Printed;
use super::program::Printer;
use super::question::Ways;
use std::io;

/// `None` if the program prints nothing else.
pub fn compare(program: &Printer, whole: &Printed, lines: &[Marked]) -> io::Result<Option<Ways>> {
    let struck: Vec<bool> = lines.iter().map(|marked| marked.struck).collect();
    let left: Vec<&Marked> = lines.iter().filter(|marked| !marked.struck).collect();
    let printed = program.print(&left)?;
    Ok((printed != without(whole, &struck)).then(|| first(whole, &struck, &printed)))
}

/// The header, and of each line that is left its text after its new number.
pub fn without(whole: &Printed, struck: &[bool]) -> Vec<u8> {
    let mut printed = whole.header.clone();
    for (number, (_, text)) in (1..).zip(left(whole, struck)) {
        printed.extend(format!("{number} ").bytes());
        printed.extend(text);
        printed.push(b'\n');
    }
    printed
}

/// The old numbers of the lines that are left, and their texts.
fn left<'a>(whole: &'a Printed, struck: &'a [bool]) -> impl Iterator<Item = (usize, &'a [u8])> {
    let numbered = (1..).zip(&whole.texts).zip(struck);
    numbered
        .filter(|(_, &struck)| !struck)
        .map(|((number, text), _)| (number, &text[..]))
}

/// The first line that the two do not share, as each prints it.
fn first(whole: &Printed, struck: &[bool], printed: &[u8]) -> Ways {
    let wanted = without(whole, struck);
    let (wanted, printed) = (lines(&wanted), lines(printed));
    let place = (0..).find(|&place| wanted.get(place) != printed.get(place));
    let place = place.expect("two texts that differ");
    let old = match place.checked_sub(1) {
        None => wanted.first().map(|header| shown(header)),
        Some(place) => left(whole, struck)
            .nth(place)
            .map(|(number, text)| format!("{number} {}", shown(text))),
    };
    let new = printed.get(place).map(|line| shown(line));
    [("the whole script prints", old), ("the thinned one", new)]
        .map(|(what, line)| (what.to_string(), line.unwrap_or("nothing".to_string())))
}

fn lines(printed: &[u8]) -> Vec<&[u8]> {
    printed.split_inclusive(|&byte| byte == b'\n').collect()
}

fn shown(line: &[u8]) -> String {
    String::from_utf8_lossy(line).trim_end().to_string()
}
