//! A cycle of the line load while it is open, and what can be said of it when it ends.

use crate::load::Cycle;
use std::collections::BTreeSet;

pub struct Open {
    pub cycle: Cycle,
    /// What it has brought up.
    pub what: BTreeSet<String>,
    pub lines: usize,
    pub ms: usize,
    pub clock_ends: usize,
    /// Those with a reply.
    pub ports: BTreeSet<u8>,
}

impl Open {
    pub fn new(first: usize, tcyc: u8) -> Open {
        Open {
            cycle: Cycle {
                first,
                tcyc,
                wire_bytes: 0,
            },
            what: BTreeSet::new(),
            lines: 0,
            ms: 0,
            clock_ends: 0,
            ports: BTreeSet::new(),
        }
    }

    /// What can be said when it ends.
    pub fn ended(&self) -> Vec<&'static str> {
        let cycle = &self.cycle;
        let sent = cycle.wire_bytes > 0;
        let others = [
            ("TCYC 1", cycle.tcyc == 1),
            ("TCYC 255", cycle.tcyc == 255),
            ("TCYC 2 to 254", (2..255).contains(&cycle.tcyc)),
            ("nothing sent", !sent),
            ("quotient above 1,000", cycle.quotient() > 1_000),
            ("quotient 0, something sent", sent && cycle.quotient() == 0),
            (
                "remainder 0, something sent",
                sent && cycle.remainder() == 0,
            ),
            ("one line alone", self.lines == 1),
            ("10 clock ends or more", self.clock_ends >= 10),
            ("1,000 ms or more", self.ms >= 1_000),
            ("replies on both ports", self.ports.len() == 2),
        ];
        let came = others.into_iter().filter(|&(_, came)| came);
        came.map(|(what, _)| what).collect()
    }
}
