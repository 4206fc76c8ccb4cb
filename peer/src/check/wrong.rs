//! Modules that are wrong in one way each: striking, or the watcher of the terminals, notices it.

use super::programs::{self, Fault};
use super::{strike, Tally};
use crate::module::{Agent, Fixed, Mode};
use crate::strike::{shortened, try_script, Finding, Question, Report};

/// What a refusal wrongly leaves.
const LEFT: [(&str, Fault); 12] = [
    ("6 sets bit 5", |_, agent, answer| {
        if answer == 6 {
            agent.registers[0x19] |= 0x20;
        }
    }),
    ("6 clears bit 1", |_, agent, answer| {
        if answer == 6 {
            agent.registers[0x19] &= !0x02;
        }
    }),
    ("9 sets bit 1", |_, agent, answer| {
        if answer == 9 {
            agent.registers[0x19] |= 0x02;
        }
    }),
    ("9 restarts the clock of syncs", |_, agent, answer| {
        if answer == 9 {
            agent.since_sync = 0;
        }
    }),
    ("10 counts in CPT_SEQ", |_, agent, answer| {
        if answer == 10 {
            agent.registers[0x20] = agent.registers[0x20].saturating_add(1);
        }
    }),
    ("10 sets the mark", |_, agent, answer| {
        if answer == 10 {
            agent.mark = 1;
        }
    }),
    ("11 counts in CPT_FOR", |_, agent, answer| {
        if answer == 11 {
            agent.registers[0x24] = agent.registers[0x24].saturating_add(1);
        }
    }),
    ("11 raises k", |_, agent, answer| {
        if answer == 11 && agent.heard && agent.taken < 16 {
            agent.taken += 1;
        }
    }),
    ("13 sets bit 1", |_, agent, answer| {
        if answer == 13 {
            agent.registers[0x19] |= 0x02;
        }
    }),
    ("13 lets requests in again", |_, agent, answer| {
        if answer == 13 {
            agent.taken = 0;
        }
    }),
    (
        "13 restarts the clock of output writes",
        |_, agent, answer| {
            if answer == 13 {
                agent.since_output = 0;
            }
        },
    ),
    ("17 sets bit 5", |_, agent, answer| {
        if answer == 17 {
            agent.registers[0x19] |= 0x20;
        }
    }),
];

/// What the terminals wrongly show.
const SHOWN: [(&str, Fault); 5] = [
    ("fallback leaves 80h", |before, agent, _| {
        if fell(before, agent) {
            agent.registers[0x80] = before.registers[0x80];
        }
    }),
    ("RUN begins with FFh at BFh", |before, agent, _| {
        if before.mode == Mode::Fallback && agent.mode == Mode::Run {
            agent.registers[0xBF] = 0xFF;
        }
    }),
    ("16 writes its byte", |_, agent, answer| {
        if answer == 16 && agent.mode == Mode::Run {
            agent.registers[0xBF] ^= 0x01;
        }
    }),
    ("13 writes again", |_, agent, answer| {
        if answer == 13 && agent.mode == Mode::Run {
            agent.registers[0x81] = 0x5A;
        }
    }),
    ("a write clears the others", |before, agent, _| {
        if before.mode == agent.mode && before.registers[0x80] != agent.registers[0x80] {
            agent.registers.bytes[0x90..0xC0].fill(0);
        }
    }),
];

fn fell(before: &Agent, agent: &Agent) -> bool {
    before.mode == Mode::Run && agent.mode == Mode::Fallback
}

pub fn run(tally: &mut Tally) {
    for (what, fault) in LEFT {
        let found = first_of_all(fault).is_some_and(|finding| {
            matches!(finding.question, Question::Struck(..)) && finding.ways[0] != finding.ways[1]
        });
        tally.check(found, &format!("a module in which {what}"));
    }
    for (what, fault) in SHOWN {
        let found = first_of_all(fault)
            .is_some_and(|finding| matches!(finding.question, Question::Terminals));
        tally.check(found, &format!("a module in which {what}"));
    }
    short(tally);
}

/// In one of a few scripts.
fn first_of_all(fault: Fault) -> Option<Finding> {
    let programs = programs::wrong(Fixed::DOORS, fault);
    (61..65).find_map(|seed| {
        let script = strike::lines(Fixed::DOORS, seed);
        try_script(&programs, seed, script, &mut Report::default()).expect("memory")
    })
}

/// The shortest script that shows a fault: the frame that is struck, and a line after it.
fn short(tally: &mut Tally) {
    let programs = programs::wrong(Fixed::DOORS, LEFT[0].1);
    let script = strike::lines(Fixed::DOORS, 61);
    let found = try_script(&programs, 61, script, &mut Report::default()).expect("memory");
    let difference = found.map(|found| shortened(&programs, 61, found).expect("memory"));
    let right = difference.is_some_and(|difference| {
        difference.script.len() == 2 && difference.struck == [1] && difference.lines_before > 900
    });
    tally.check(right, "the shortest script in which 6 sets bit 5");
}
