//! The script program: document 01's example, the forms of lines, and what generated scripts
//! bring up.

use super::module::Bench;
use super::Tally;
use crate::census;
use crate::generate;
use crate::module::ground::Ground;
use crate::module::Mode;
use crate::script::{self, Player, Program};

/// From document 01, byte for byte.
const EXAMPLE: (&str, &str) = (
    "T 255\n1 00\n3 00\n",
    "LINE ANSWER MODE CYC\n1 0 F 01\n2 1 F 01\n3 21 F 01\n",
);

/// Lines and what they print after their number, one after another on one module.
const FORMS: [(&str, &str); 24] = [
    ("", "BAD"),
    ("1 ", "1 F 00"),
    ("1", "BAD"),
    ("9 ", "21 F 00"),
    ("0 00", "21 F 00"),
    ("1 0", "BAD"),
    ("1 00\r", "BAD"),
    ("1 aB", "1 F 00"),
    ("t 1", "BAD"),
    ("T 0", "BAD"),
    ("T 01", "BAD"),
    ("T 60001", "BAD"),
    ("T 1 ", "BAD"),
    ("T+1", "BAD"),
    ("T +1", "BAD"),
    ("T 254", "0 F 00"),
    ("T 1", "0 F 01"),
    ("T 60000", "0 F EC"),
    ("I 00", "BAD"),
    ("i 00", "BAD"),
    ("I", "BAD"),
    ("12 00", "BAD"),
    ("A 00", "BAD"),
    (" 1 00", "BAD"),
];

/// How often every answer must come up in 6,000 lines, at least.
const OFTEN: usize = 50;

const IN_A_SCRIPT: [(&str, usize); 24] = [
    ("entered RUN", 50),
    ("left RUN: sync silence", 10),
    ("left RUN: command silence", 10),
    ("left RUN: wrong cycle", 10),
    ("left RUN: order", 10),
    ("left RUN: window", 5),
    ("left RUN: sync silence, command silence too", 2),
    ("left RUN: sync silence, window too", 2),
    ("left RUN: command silence, window too", 2),
    ("left RUN: sync silence, command silence and window too", 2),
    ("mark healed", 5),
    ("second 22 while marked", 5),
    ("takeover in RUN", 10),
    ("wrap in RUN by a sync", 5),
    ("wrap in RUN by the clock", 5),
    ("reply: error AAh", 10),
    ("reply: error 55h", 10),
    ("bad line", 50),
    ("repeat on the other port", 50),
    ("request of a deposed one in cycle 00h to 03h", 5),
    ("inputs", 200),
    ("inputs, two in a row", 20),
    ("inputs: left RUN: sync silence", 5),
    ("inputs: left RUN: command silence", 5),
];

const IN_A_LONG_SCRIPT: [(&str, usize); 59] = [
    ("frame before the first SID", 20),
    ("recorded", 8),
    ("takeover in fallback", 10),
    ("sync in RUN when one was lost: CYC = c + 1", 20),
    ("sync in RUN when the clock ended the cycle: CYC = c", 20),
    ("request of a deposed one in Run", 50),
    ("pending release ended by silence", 10),
    ("accepted with CONF bit 2", 50),
    ("CPT_SEQ stays at 255", 20),
    ("CPT_FOR stays at 255", 20),
    ("k at the limit: 13", 20),
    ("k at the limit: 14", 20),
    ("k at the limit: 15", 50),
    ("damaged body 1: none at all", 10),
    ("damaged body 1: short", 10),
    ("damaged body 1: long", 10),
    ("damaged body 2: flag", 10),
    ("damaged body 2: last 7Dh", 10),
    ("damaged body 2: other byte behind 7Dh", 10),
    ("damaged body 3: short", 10),
    ("damaged body 3: long", 10),
    ("damaged body 4: FCS", 50),
    ("bad line: empty", 2),
    ("bad line: over 1,200 characters", 5),
    ("bad line: CR at the end", 5),
    ("bad line: no text", 5),
    ("bad line: no count of ticks", 5),
    ("bad line: no inputs", 5),
    ("bad line: no pairs of hex digits", 5),
    ("inputs: RUN, one tick before sync silence", 50),
    ("inputs: RUN, one tick before command silence", 50),
    ("inputs: end of a cycle in RUN", 100),
    ("inputs: pending release ended by silence", 10),
    ("inputs, six in a row", 4),
    ("left RUN: sync silence, command silence too", 10),
    ("left RUN: sync silence, window too", 10),
    ("left RUN: command silence, window too", 5),
    ("left RUN: sync silence, command silence and window too", 5),
    ("left RUN: command silence, while marked", 3),
    ("left RUN: wrong cycle, while marked", 5),
    ("left RUN: order, while marked", 3),
    ("inputs: left RUN: window", 5),
    ("mark healed on the other port", 10),
    ("left RUN: window", 20),
    ("entered RUN, 26h none since power-up", 1),
    ("sync in RUN, heard, CYC = c + 1, e = 0: 0", 20),
    ("sync in RUN, heard, CYC = c + 1, e = 0: 22", 20),
    ("sync in RUN, heard, CYC = c + 1, e = TCYC - w - 1: 22", 10),
    ("sync in RUN, heard, CYC = c + 1, e = TCYC - w: 0", 50),
    ("sync in RUN, heard, CYC = c + 1, e = TCYC - 1: 0", 50),
    ("sync in RUN, unheard, CYC = c + 1, e = 0: 0", 5),
    ("sync in RUN, unheard, CYC = c + 1, e = 0: 22", 10),
    (
        "sync in RUN, unheard, CYC = c + 1, e = TCYC - w - 1: 22",
        10,
    ),
    ("sync in RUN, unheard, CYC = c + 1, e = TCYC - w: 0", 20),
    ("sync in RUN, unheard, CYC = c + 1, e = TCYC - 1: 0", 20),
    ("sync in RUN, unheard, CYC = c, e = 0: 0", 50),
    ("sync in RUN, unheard, CYC = c, e = w - 1: 0", 50),
    ("sync in RUN, unheard, CYC = c, e = w: 0", 20),
    ("sync in RUN, unheard, CYC = c, e = w + 1: 22", 10),
];

/// For each ground that 26h shows.
const WITH_EACH_GROUND: [(&str, usize); 6] = [
    ("left RUN: ", 10),
    ("entered RUN, 26h ", 10),
    ("in fallback again by sync silence, 26h ", 3),
    ("in fallback again by order, 26h ", 3),
    ("reply: to a read, 26h ", 5),
    ("reply: to a sync, 26h ", 20),
];

/// What the numbers of requests must bring up in a long script, and how often, at least.
const OF_NUMBERS: [(&str, usize); 21] = [
    ("1 skipped: 0", 20),
    ("2 skipped: 0", 20),
    ("3 skipped: 0", 100),
    ("1 skipped: 16", 5),
    ("2 skipped: 16", 5),
    ("3 skipped: 16", 50),
    ("1 skipped: CPT_SEQ stops at 255", 3),
    ("2 skipped: CPT_SEQ stops at 255", 3),
    ("3 skipped: CPT_SEQ stops at 255", 3),
    ("13 to a number skipped", 50),
    ("13 to a number taken", 200),
    ("14, d = k + 4", 50),
    ("14, d = 68", 10),
    ("15, d = k + 0", 50),
    ("15, d = k + 1", 10),
    ("15, d = k + 2", 10),
    ("15, d = k + 3", 10),
    ("15, d = 64", 50),
    ("15, d = 65", 10),
    ("15, d = 66", 10),
    ("15, d = 67", 10),
];

/// k, and the answers to requests that are 0 to 4 numbers ahead; 0 stands for 0 or 16.
const BY_TAKEN: [(u8, [u8; 5]); 10] = [
    (0, [0, 0, 0, 0, 14]),
    (1, [0, 0, 0, 0, 14]),
    (2, [0, 0, 0, 0, 14]),
    (3, [0, 0, 0, 0, 14]),
    (4, [0, 0, 0, 0, 14]),
    (60, [0, 0, 0, 0, 14]),
    (61, [0, 0, 0, 15, 14]),
    (62, [0, 0, 15, 15, 14]),
    (63, [0, 15, 15, 15, 14]),
    (64, [15, 15, 15, 15, 14]),
];

const NEVER: [&str; 3] = [
    census::CHANGED,
    "left RUN: none since power-up",
    "left RUN: not a ground",
];

/// The spans that can be written, and the modes in which they can.
const SPANS: [(&str, &[&str]); 6] = [
    ("17h to 17h", &["Fallback", "Run"]),
    ("18h to 18h", &["Fallback"]),
    ("1Ah to 1Dh", &["Fallback"]),
    ("1Eh to 24h", &["Fallback", "Run"]),
    ("25h to 25h", &["Fallback", "Run"]),
    ("80h to BFh", &["Run"]),
];

pub fn run(tally: &mut Tally) {
    example(tally);
    forms(tally);
    long_lines(tally);
    inputs(tally);
    inputs_tick(tally);
    inputs_in_run(tally);
    generated(tally);
    generated_edges(tally);
    generated_grounds(tally);
    generated_numbers(tally);
}

fn output(program: Program, input: &[u8]) -> String {
    let mut output = Vec::new();
    script::run(program, input, &mut output).expect("memory takes any text");
    String::from_utf8(output).expect("text")
}

fn example(tally: &mut Tally) {
    let (input, expected) = EXAMPLE;
    let cut = input.strip_suffix('\n').unwrap_or(input);
    for input in [input, cut] {
        let printed = output(Program::Script, input.as_bytes());
        tally.check(printed == expected, "the example of document 01");
        trace_agrees(tally, input, expected);
    }
    let empty = output(Program::Script, b"");
    tally.check(empty == "LINE ANSWER MODE CYC\n", "no line at all");
}

/// The trace has the same four fields, then two more.
fn trace_agrees(tally: &mut Tally, input: &str, expected: &str) {
    let traced = output(Program::Trace, input.as_bytes());
    let mut same = traced.lines().count() == expected.lines().count();
    for (traced, line) in traced.lines().zip(expected.lines()) {
        let more = traced.strip_prefix(line).unwrap_or("");
        same &= match line.starts_with('L') {
            true => more == " REPLY REGISTERS",
            false => more.starts_with(" - 0100000000000000020000") && more.len() == 3 + 512,
        };
    }
    tally.check(same, "the example, traced");
}

fn forms(tally: &mut Tally) {
    let input: Vec<&str> = FORMS.iter().map(|(line, _)| *line).collect();
    let printed = output(Program::Script, input.join("\n").as_bytes());
    for (number, ((line, expected), printed)) in
        (1..).zip(FORMS.iter().zip(printed.lines().skip(1)))
    {
        let right = printed == format!("{number} {expected}");
        tally.check(right, &format!("the line {line:?}"));
    }
}

/// 1,200 characters are read, more are not; what follows is the next line.
fn long_lines(tally: &mut Tally) {
    for (digits, expected) in [
        (1198, "1 1 F 00"),
        (1199, "1 BAD"),
        (1200, "1 BAD"),
        (90_000, "1 BAD"),
    ] {
        let input = format!("1 {}\n1 00", "0".repeat(digits));
        let printed = output(Program::Script, input.as_bytes());
        let lines: Vec<&str> = printed.lines().skip(1).collect();
        tally.check(lines == [expected, "2 1 F 00"], &format!("{digits} digits"));
    }
}

fn inputs(tally: &mut Tally) {
    for (digits, expected) in [
        (126, "1 BAD"),
        (127, "1 BAD"),
        (128, "1 0 F 00"),
        (130, "1 BAD"),
    ] {
        let input = format!("I {}", "a".repeat(digits));
        let printed = output(Program::Trace, input.as_bytes());
        let line = printed.lines().nth(1).unwrap_or("");
        let set = line.ends_with(&"A".repeat(128)) == (digits == 128);
        tally.check(
            line.starts_with(expected) && set,
            &format!("I and {digits} digits"),
        );
    }
}

/// `I` is one tick with its inputs, `T` keeps those held, and a BAD line does neither.
fn inputs_tick(tally: &mut Tally) {
    let inputs = |digit: &str| "I ".to_string() + &digit.repeat(128);
    let lines = [
        ("T 253".to_string(), "0 F 00", "0"),
        (inputs("A"), "0 F 00", "A"),
        (inputs("B") + "B", "BAD", ""),
        ("T 1".to_string(), "0 F 01", "A"),
        (inputs("C"), "0 F 01", "C"),
        ("T 253".to_string(), "0 F 01", "C"),
        (inputs("D"), "0 F 02", "D"),
        ("T 60000".to_string(), "0 F ED", "D"),
    ];
    let input = lines.clone().map(|(line, ..)| line);
    let printed = output(Program::Trace, input.join("\n").as_bytes());
    for (number, ((_, expected, held), printed)) in
        (1..).zip(lines.iter().zip(printed.lines().skip(1)))
    {
        let start = format!("{number} {expected}");
        let right = printed.starts_with(&start) && printed.ends_with(&held.repeat(128));
        tally.check(right, &format!("line {number} of ticks and inputs"));
    }
}

/// Lines of inputs alone reach the sync limit, with the 20th of them.
fn inputs_in_run(tally: &mut Tally) {
    let mut player = Player::power_up();
    player.agent = Bench::running(10, 2, 5, 0x07).agent;
    for tick in 1..=20 {
        let line = "I ".to_string() + &format!("{tick:02}").repeat(64);
        let answer = player.play(line.as_bytes()).map(|played| played.answer);
        let right = answer == Some(0) && (player.agent.mode == Mode::Run) == (tick < 20);
        tally.check(right, &format!("line {tick} of inputs in RUN"));
    }
}

/// The stored script must bring up everything often.
fn generated(tally: &mut Tally) {
    let script = generate::script(11, 6000);
    let again = generate::script(11, 6000);
    tally.check(script == again, "a seed gives one script");
    let census = census::of(&script);
    for number in (0..=18).chain([21, 22]) {
        let what = format!("answer {number} comes up often");
        tally.check(census.answers(number) >= OFTEN, &what);
    }
    for (what, least) in IN_A_SCRIPT {
        tally.check(census.count(what) >= least, what);
    }
}

/// The script of the stored trace must bring up each edge too.
fn generated_edges(tally: &mut Tally) {
    let census = census::of(&generate::script(12, 20_000));
    for (what, least) in IN_A_SCRIPT.into_iter().chain(IN_A_LONG_SCRIPT) {
        tally.check(census.count(what) >= least, what);
    }
    for (span, open) in SPANS {
        for mode in ["Fallback", "Run"] {
            let taken = if open.contains(&mode) { 0 } else { 16 };
            for (place, answer) in [
                ("whole", taken),
                ("no byte", 16),
                ("over its start", 16),
                ("over its end", 16),
                ("around it", 16),
            ] {
                let what = format!("write {span}: {place}: {answer} in {mode}");
                tally.check(census.count(&what) > 0, &what);
            }
        }
    }
}

/// The same script must bring up what concerns 26h, with each ground.
fn generated_grounds(tally: &mut Tally) {
    let census = census::of(&generate::script(12, 20_000));
    for (start, least) in WITH_EACH_GROUND {
        for ground in Ground::ALL {
            let what = start.to_string() + ground.name();
            tally.check(census.count(&what) >= least, &what);
        }
    }
    for start in ["24h", "25h", "26h"] {
        for mode in ["Fallback", "Run"] {
            let what = format!("write over 26h from {start}: 16 in {mode}");
            tally.check(census.count(&what) >= 5, &what);
        }
    }
    for what in NEVER {
        tally.check(census.count(what) == 0, what);
    }
}

/// And the numbers of requests, those near the first and about the limit.
fn generated_numbers(tally: &mut Tally) {
    let census = census::of(&generate::script(12, 20_000));
    for (what, least) in OF_NUMBERS {
        tally.check(census.count(what) >= least, what);
    }
    for (taken, answers) in BY_TAKEN {
        for (ahead, answer) in answers.into_iter().enumerate() {
            let what = format!("k = {taken}, {ahead} ahead");
            let refused = (answer == 0).then(|| format!("{what}: 16"));
            let what = format!("{what}: {answer}");
            let count = census.count(&what) + refused.map_or(0, |what| census.count(&what));
            tally.check(count > 0, &what);
        }
    }
}
