//! Lists for the frame program: comments, a script's own lines, ports and flags.

use super::spelling::{check_lines, output};
use super::Tally;
use crate::census::{self, ListCensus};
use crate::generate;

/// Lines and what they print, one after another in one input.
const LINES: [(&str, &str); 48] = [
    ("# a comment", ""),
    ("", ""),
    ("#", ""),
    (" #", "4 BAD: no such kind"),
    ("##1 00", ""),
    (" ", "6 BAD: no such kind"),
    ("T", "T"),
    ("T ", "T "),
    ("T 5", "T 5"),
    ("T five and more\r", "T five and more\r"),
    ("Tx", "11 BAD: no such kind"),
    ("T\t5", "12 BAD: no such kind"),
    ("t 5", "13 BAD: no such kind"),
    (" T 5", "14 BAD: no such kind"),
    ("I", "I"),
    ("I 0", "I 0"),
    ("I\r", "17 BAD: no such kind"),
    ("i 00", "18 BAD: no such kind"),
    ("1", "19 BAD: no such kind"),
    ("1 ", "1 "),
    ("1 aBcD", "1 aBcD"),
    ("0 00", "0 00"),
    ("9 00", "9 00"),
    ("1 abc", "24 BAD: no such kind"),
    ("1 00 ", "25 BAD: no such kind"),
    ("1  00", "26 BAD: no such kind"),
    ("1  ", "27 BAD: no such kind"),
    ("1 00\r", "28 BAD: no such kind"),
    ("1\t00", "29 BAD: no such kind"),
    ("12 00", "30 BAD: no such kind"),
    ("A 00", "31 BAD: no such kind"),
    ("1 T 5", "32 BAD: no such kind"),
    ("1 # a comment", "33 BAD: no such kind"),
    ("1 1 00", "34 BAD: no such kind"),
    ("1 sync src=11EE11 cyc=05", "1 FF0011EE1105750BCED5"),
    ("0 sync src=11ee11 cyc=05", "0 FF0011EE1105750BCED5"),
    ("9 body FF0011EE1105750BCED5", "9 sync src=11EE11 cyc=05"),
    (
        "2 body 7eFF0011EE1105750BCED57e",
        "2 sync src=11EE11 cyc=05",
    ),
    ("1 body", "39 BAD: body wants pairs of hex digits"),
    ("1 body ", "1 refused 1: body not 7 to 543 bytes"),
    ("1 body 0", "41 BAD: body wants pairs of hex digits"),
    ("1 sync src=11EE11", "42 BAD: cyc= wants 2 hex digits"),
    (
        "1 sync src=11EE11 cyc=05 ",
        "43 BAD: more behind the last field",
    ),
    (
        "3 plain-write to=7E src=F0 at=80 data=",
        "3 refused 5: reserved address",
    ),
    ("1  sync src=11EE11 cyc=05", "45 BAD: no such kind"),
    ("1sync src=11EE11 cyc=05", "46 BAD: no such kind"),
    ("#last", ""),
    ("x", "48 BAD: no such kind"),
];

/// Bodies with flags, and what they print.
const FLAGS: [(&str, &str); 10] = [
    ("body 7EFF0011EE1105750BCED57E", "sync src=11EE11 cyc=05"),
    ("body 7EFF0011EE1105750BCED5", "refused 4: FCS"),
    ("body FF0011EE1105750BCED57E", "refused 2: stuffing"),
    ("body 7E7EFF0011EE1105750BCED57E7E", "refused 2: stuffing"),
    ("body 7EFF0011EE7E05750BCED57E", "refused 2: stuffing"),
    ("body 7E", "refused 1: body not 7 to 543 bytes"),
    ("body 7E7E", "refused 1: body not 7 to 543 bytes"),
    ("body 7e7e7e", "refused 1: body not 7 to 543 bytes"),
    (
        "body 7E7E7E7E7E7E7E7E",
        "refused 1: body not 7 to 543 bytes",
    ),
    ("body 7E7E7E7E7E7E7E7E7E", "refused 2: stuffing"),
];

/// The seed of the stored list, and how many lines it has.
const STORED: (u64, usize) = (13, 5000);

/// How often the lines of each sort must come, at least.
const SORTS: [(&str, usize); 29] = [
    ("comment", 60),
    ("empty line", 20),
    ("line of inputs", 50),
    ("line of ticks", 80),
    ("line over 1,200 characters", 60),
    ("no port: body", 400),
    ("no port: body refused 1", 30),
    ("no port: body refused 2", 150),
    ("no port: body refused 3", 30),
    ("no port: body refused 4", 100),
    ("no port: body refused 5", 50),
    ("no port: body refused 7", 150),
    ("no port: body refused 8", 200),
    ("no port: body refused 9", 100),
    ("no port: body that is BAD", 50),
    ("no port: frame", 600),
    ("no port: frame refused 5", 50),
    ("no port: frame refused 8", 80),
    ("no port: frame that is BAD", 800),
    ("no port: no kind", 100),
    ("port before body", 60),
    ("port before body refused 2", 40),
    ("port before body refused 4", 10),
    ("port before body refused 8", 10),
    ("port before frame", 150),
    ("port before frame refused 5", 15),
    ("port before frame refused 8", 10),
    ("port before frame that is BAD", 200),
    ("port before no kind", 100),
];

/// And what lies at an edge.
const EDGES: [(&str, usize); 27] = [
    ("# alone", 20),
    ("space before #", 20),
    ("T or I alone", 30),
    ("T or I and a space", 30),
    ("T or I and no space", 30),
    ("t or i", 20),
    ("digit alone", 10),
    ("digit and a space", 10),
    ("digit and two spaces", 20),
    ("digit and no space", 20),
    ("odd count of digits behind a port", 20),
    ("small letters behind a port", 30),
    ("comment over 1,200 characters", 10),
    ("comment of 1199 characters", 3),
    ("comment of 1200 characters", 3),
    ("comment of 1201 characters", 3),
    ("ticks or inputs of 1199 characters", 5),
    ("ticks or inputs of 1200 characters", 5),
    ("ticks or inputs of 1201 characters", 5),
    ("port and digits of 1199 characters", 4),
    ("port and digits of 1200 characters", 4),
    ("port and digits of 1201 characters", 4),
    ("body with both flags", 80),
    ("body with an opening flag only", 40),
    ("body with a closing flag only", 40),
    ("body with flags and one inside", 80),
    ("body of flags only", 10),
];

pub fn run(tally: &mut Tally) {
    generated(tally);
    check_lines(tally, &LINES);
    check_lines(tally, &FLAGS);
    silent(tally);
    long_lines(tally);
    flags_at_the_limit(tally);
}

/// What the stored list brings up.
fn generated(tally: &mut Tally) {
    let (seed, count) = STORED;
    let census = census::of_list(&generate::frame_lines(seed, count));
    for (sort, wanted) in SORTS {
        often(tally, &census, sort, wanted);
    }
    for (edge, wanted) in EDGES {
        often(tally, &census, &format!("edge: {edge}"), wanted);
    }
    for port in 0..10 {
        let own = format!("script's own line on port {port}");
        often(tally, &census, &own, 6);
    }
    let unported = SORTS.iter().filter(|(sort, _)| sort.starts_with("no port"));
    let old: usize = unported.map(|(sort, _)| census.count(sort)).sum();
    tally.check(10 * old > 7 * count, "most lines of a list have no port");
}

fn often(tally: &mut Tally, census: &ListCensus, what: &str, wanted: usize) {
    let count = census.count(what);
    tally.check(count >= wanted, &format!("{what}: {count} of {wanted}"));
}

/// Only an empty input prints the grammar.
fn silent(tally: &mut Tally) {
    for input in ["\n", "#", "#\n", "\n\n", "# one\n\n# two"] {
        tally.check(output(input).is_empty(), &format!("nothing for {input:?}"));
    }
    tally.check(output("T 5") == "T 5\n", "a last line gets its LF");
}

/// Lines of 1,200 characters are still read, be they comments or printed unchanged.
fn long_lines(tally: &mut Tally) {
    let over = "1 BAD: over 1,200 characters\n";
    for (start, fill) in [
        ("T ", "x"),
        ("I ", "0"),
        ("T", " "),
        ("1 ", "0"),
        ("1 ", "aB"),
    ] {
        for length in [1198, 1200] {
            let line = start.to_string() + &fill.repeat((length - start.len()) / fill.len());
            let printed = output(&line);
            tally.check(printed.trim_end_matches('\n') == line, "a long line passed");
        }
        let line = start.to_string() + &fill.repeat(1201);
        tally.check(output(&line) == over, "too long a line to pass");
    }
    let comment = |length| "#".repeat(length);
    tally.check(output(&comment(1200)).is_empty(), "a long comment");
    tally.check(output(&comment(1201)) == over, "too long a comment");
    let odd = "1 ".to_string() + &"0".repeat(1197);
    let wanted = "1 BAD: no such kind\n";
    tally.check(output(&odd) == wanted, "an odd count behind a port");
}

/// A body of 543 bytes is as long as one may be, with or without its flags.
fn flags_at_the_limit(tally: &mut Tally) {
    for (bytes, refused) in [(542, false), (543, false), (544, true)] {
        let body = "11".repeat(bytes);
        let too_long = "refused 1: body not 7 to 543 bytes\n";
        for line in [format!("body {body}"), format!("body 7E{body}7E")] {
            let given = output(&line) == too_long;
            tally.check(given == refused, &format!("{bytes} bytes between flags"));
        }
    }
}
