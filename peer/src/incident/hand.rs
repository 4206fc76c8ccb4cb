//! A script that grows line by line, and how most of the named ones begin.

use crate::fuzz::Ending;
use crate::generate::draft::Draft;
use crate::generate::speech;
use crate::script::parse;
use crate::tape::{Tape, FIRST};

#[derive(Clone)]
pub struct Hand {
    tape: Tape,
    ending: Ending,
}

/// To RUN in four lines, each of which matters: SID, sync, release, sync. TCYC is 255, CNF_CYC 2, CNF_REP 5.
pub fn bare() -> Hand {
    blank()
        .assign(FIRST)
        .sync(0x06)
        .write(0x17, &[0x55])
        .sync(0x07)
}

/// The same in eight lines, none of which matters.
pub fn twice_each() -> Hand {
    let named = blank().assign(FIRST).twice().sync(0x06).twice();
    named.write(0x17, &[0x55]).twice().sync(0x07).twice()
}

/// To RUN with TCYC, CNF_CYC and CNF_REP, every frame twice: 12 lines. The heard cycle 07h has just begun.
pub fn opening(time: u8, syncs: u8, outputs: u8) -> Hand {
    let released = blank().released(time, syncs, outputs);
    released.sync(0x07).twice()
}

pub fn blank() -> Hand {
    Hand {
        tape: Tape::blank(),
        ending: Ending::Lf,
    }
}

impl Hand {
    pub fn text(&self) -> Vec<u8> {
        self.ending.text(&self.tape.lines)
    }

    pub fn without_lf(mut self) -> Hand {
        self.ending = Ending::NoLf;
        self
    }

    pub fn length(&self) -> usize {
        self.tape.lines.len()
    }

    /// The line before, on the other port.
    pub fn twice(mut self) -> Hand {
        self.tape.again();
        self
    }

    /// The line before, on this port.
    pub fn on_port(mut self, port: u8) -> Hand {
        let line = self.tape.lines.last_mut().expect("a line before");
        line[0] = b'0' + port;
        self
    }

    /// The line before, so.
    pub fn in_small_letters(mut self) -> Hand {
        let line = self.tape.lines.last_mut().expect("a line before");
        line.make_ascii_lowercase();
        self
    }

    /// The line before, with a CR at its end: it is BAD then.
    pub fn with_cr(mut self) -> Hand {
        let line = self.tape.lines.last_mut().expect("a line before");
        line.push(b'\r');
        self
    }

    /// The first lines again, so many.
    pub fn repeated(mut self, count: usize) -> Hand {
        self.tape.lines.extend_from_within(..count);
        self
    }

    /// From power-up, with TCYC, CNF_CYC and CNF_REP, to before the sync that leads to RUN, every frame twice: 10 lines. The
    /// cycle is 06h.
    pub fn released(self, time: u8, syncs: u8, outputs: u8) -> Hand {
        let named = self.assign(FIRST).twice().sync(0x06).twice();
        let set = named.write(0x18, &[time]).twice();
        let set = set.write(0x1A, &[outputs, syncs]).twice();
        set.write(0x17, &[0x55]).twice()
    }

    pub fn assign(mut self, src: u32) -> Hand {
        self.tape.assign(src);
        self
    }

    pub fn sync(mut self, cyc: u8) -> Hand {
        self.tape.sync(cyc);
        self
    }

    pub fn sync_of(mut self, src: u32, cyc: u8) -> Hand {
        self.tape.sync_of(src, cyc);
        self
    }

    /// A sync that opens no cycle: the requests go on in the one before.
    pub fn stray_sync(self, src: u32, cyc: u8) -> Hand {
        self.say(&speech::sync(src, cyc))
    }

    pub fn say(mut self, draft: &Draft) -> Hand {
        self.tape.say(1, draft);
        self
    }

    pub fn say_times(self, times: usize, draft: &Draft) -> Hand {
        (0..times).fold(self, |hand, _| hand.say(draft))
    }

    pub fn write(mut self, add: u8, data: &[u8]) -> Hand {
        self.tape.write(add, data);
        self
    }

    pub fn write_to(mut self, address: u8, add: u8, data: &[u8]) -> Hand {
        self.tape.write_to(address, add, data);
        self
    }

    pub fn read(mut self, datl: u8, add: u8) -> Hand {
        self.tape.read(datl, add);
        self
    }

    /// So many numbers of requests are left out.
    pub fn lose(mut self, count: u8) -> Hand {
        self.tape.lose(count);
        self
    }

    /// The next request has the number of the one before.
    pub fn same_number(self) -> Hand {
        self.lose(0xFF)
    }

    pub fn ticks(mut self, count: u32) -> Hand {
        self.tape.ticks(count);
        self
    }

    /// So many lines, each of so many ticks.
    pub fn ticks_times(self, lines: usize, count: u32) -> Hand {
        (0..lines).fold(self, |hand, _| hand.ticks(count))
    }

    /// So many ticks, each with its inputs.
    pub fn inputs(self, count: usize) -> Hand {
        let line = "I ".to_string() + &"5A".repeat(64);
        (0..count).fold(self, |hand, _| hand.line(&line))
    }

    pub fn line(self, line: &str) -> Hand {
        self.bytes(line.as_bytes())
    }

    pub fn bytes(mut self, line: &[u8]) -> Hand {
        self.tape.lines.push(line.to_vec());
        self
    }

    /// So many BAD lines.
    pub fn bad(self, count: usize) -> Hand {
        (0..count).fold(self, |hand, _| hand.line("x"))
    }

    /// BAD lines until there are so many lines in all.
    pub fn up_to(self, lines: usize) -> Hand {
        let missing = lines - self.length();
        self.bad(missing)
    }

    /// A known concentrator's assignment again, until there are so many lines in all.
    pub fn frames_up_to(self, lines: usize) -> Hand {
        (self.length()..lines).fold(self, |hand, _| hand.assign(FIRST))
    }

    /// So many bytes in all: the first BAD line becomes longer.
    pub fn wide(mut self, bytes: usize) -> Hand {
        let missing = bytes - self.text().len();
        let mut lines = self.tape.lines.iter_mut();
        let bad = lines.find(|line| parse(line).is_none());
        bad.expect("a BAD line").extend(vec![b'x'; missing]);
        self
    }
}
