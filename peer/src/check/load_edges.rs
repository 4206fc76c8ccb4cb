//! The stored script of the load program brings up every edge, and often enough.

use super::Tally;
use crate::census;
use crate::generate;

/// The seed and the lines of the stored script.
pub const STORED: (u64, usize) = (16, 8000);

/// At least so many cycles of each kind.
const EDGES: [(&str, usize); 43] = [
    ("TCYC 1", 100),
    ("TCYC 255", 50),
    ("TCYC 2 to 254", 200),
    ("TCYC changed within", 50),
    ("TCYC changed within and back", 5),
    ("muted from its sync on", 20),
    ("muted within", 20),
    ("unmuted within", 20),
    ("nothing sent", 20),
    ("nothing sent, third in a row", 5),
    ("acknowledgement", 50),
    ("acknowledgement after a clock end", 20),
    ("error reply AAh", 20),
    ("error reply 55h", 20),
    ("stuffing", 100),
    ("stuffing of 64 bytes or more", 50),
    ("reply of 254 data bytes", 20),
    ("quotient above 1,000", 5),
    ("quotient 0, something sent", 100),
    ("remainder 0, something sent", 20),
    ("one line alone", 50),
    ("10 clock ends or more", 20),
    ("1,000 ms or more", 20),
    ("replies on both ports", 100),
    ("left RUN within", 50),
    ("opened in RUN", 200),
    ("opened in fallback", 200),
    ("opened with the step to RUN", 50),
    ("opened by another concentrator", 20),
    ("opened on port 1", 200),
    ("opened on port 2", 200),
    ("sync refused with 10 within", 10),
    ("sync refused with 12 within", 20),
    ("sync refused with 13 within", 50),
    ("sync refused with 22 within", 20),
    ("request refused with 10 within", 5),
    ("request refused with 12 within", 20),
    ("request refused with 13 within", 50),
    ("request refused with 14 within", 5),
    ("request refused with 15 within", 2),
    ("request refused with 16 within", 10),
    ("BAD line within", 10),
    ("line over 1,200 characters within", 5),
];

const OF_THE_SCRIPT: [&str; 5] = [
    "ended in an open cycle",
    "sent before the first cycle",
    "last line without LF",
    "last line opened a cycle",
    "last line sent something",
];

pub fn run(tally: &mut Tally) {
    let (seed, lines) = STORED;
    let script = generate::loads(seed, lines);
    let again = generate::loads(seed, lines);
    tally.check(script == again, "a seed gives one script of line loads");
    let census = census::of_load(&script);
    for (what, least) in EDGES {
        let count = census.count(&format!("cycles, {what}"));
        let what = format!("stored line load: {what}: {count} of {least}");
        tally.check(count >= least, &what);
    }
    for what in OF_THE_SCRIPT {
        let came = census.count(&format!("scripts, {what}")) == 1;
        tally.check(came, &format!("stored line load: {what}"));
    }
    let stuffed = census.count("cycles, stuffing");
    tally.check(
        2 * stuffed < census.count("cycles"),
        "most cycles without stuffing",
    );
}
