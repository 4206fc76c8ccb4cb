//! What a journey and what is printed of it bring up.

use crate::worst::{self, sums, STRETCH};

/// Each thing once.
pub fn of_journey(journey: &[u8], printed: &[u8]) -> Vec<&'static str> {
    let printed = String::from_utf8_lossy(printed);
    let words: Vec<&str> = printed.split_whitespace().collect();
    let mut came = whole(journey);
    match words[..] {
        ["SHORT"] => came.push("SHORT"),
        ["LONG"] => came.push("LONG"),
        [number, "BAD"] => came.push(match number.parse() {
            Ok(0..=STRETCH) => "BAD up to line 1,000",
            _ => "BAD after line 1,000",
        }),
        [_, first] => {
            came.push("numbers");
            came.extend(of_sums(journey, first.parse().unwrap_or(0)));
        }
        _ => came.push("printed something else"),
    }
    came
}

/// Whatever is printed.
fn whole(journey: &[u8]) -> Vec<&'static str> {
    let lacks_lf = journey.last().is_some_and(|&last| last != b'\n');
    let lines = journey.split_inclusive(|&byte| byte == b'\n').count();
    let came = [
        ("without lines", journey.is_empty()),
        ("last line without LF", lacks_lf),
        ("with a CR", journey.contains(&b'\r')),
        ("of 999 lines", lines == STRETCH - 1),
        ("of 1,000 lines", lines == STRETCH),
        ("of 1,001 lines", lines == STRETCH + 1),
    ];
    those(&came)
}

/// With the number of the earliest stretch that has the largest sum.
fn of_sums(journey: &[u8], first: usize) -> Vec<&'static str> {
    let counts = worst::read(journey).expect("memory can be read");
    let counts = counts.unwrap_or_default();
    let sums = sums(&counts);
    let largest = sums.iter().max();
    let ties = (1..=sums.len()).filter(|&number| sums.get(number - 1) == largest);
    let ties: Vec<usize> = ties.collect();
    let apart = ties.last().is_some_and(|last| last - first >= STRETCH);
    those(&[
        (
            "all counts equal",
            counts.windows(2).all(|two| two[0] == two[1]),
        ),
        ("several stretches with the largest sum", ties.len() > 1),
        ("two such stretches apart", apart),
        (
            "largest at the first stretch of several",
            first == 1 && sums.len() > 1,
        ),
        (
            "largest at the last stretch of several",
            first == sums.len() && sums.len() > 1,
        ),
        (
            "largest between the first and the last stretch",
            1 < first && first < sums.len(),
        ),
    ])
}

fn those(came: &[(&'static str, bool)]) -> Vec<&'static str> {
    let came = came.iter().filter(|(_, came)| *came);
    came.map(|(what, _)| *what).collect()
}
