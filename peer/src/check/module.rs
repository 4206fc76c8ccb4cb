//! A module to check with, and one concentrator, which counts cycles and requests itself.

use crate::frame::{self, Frame, Head, SidAssignment, BROADCAST};
use crate::generate::draft::Draft;
use crate::generate::speech;
use crate::module::{Agent, Fixed, Mode, Outcome};

pub use crate::tape::{FIRST, OWN, SECOND};

#[derive(Clone)]
pub struct Bench {
    pub agent: Agent,
    buffer: [u8; 545],
    src: u32,
    cyc: u8,
    seq: u8,
}

impl Bench {
    /// Powered up, with a SID and two concentrators, no sync yet.
    pub fn named() -> Bench {
        Bench::named_as(Fixed::DOORS)
    }

    fn named_as(fixed: Fixed) -> Bench {
        let mut bench = Bench {
            agent: Agent::power_up(1, 2, 0, fixed),
            buffer: [0; 545],
            src: FIRST,
            cyc: 0,
            seq: 0,
        };
        for src in [FIRST, SECOND] {
            bench.assign(src, OWN);
        }
        bench
    }

    /// In RUN in the heard cycle `cyc`, just begun, no request taken.
    pub fn running(t: u8, n: u8, m: u8, cyc: u8) -> Bench {
        Bench::named().run(t, n, m, cyc)
    }

    /// In RUN as above, with this limit of requests.
    pub fn limited(limit: u8) -> Bench {
        Bench::named_as(Fixed { limit }).run(10, 2, 5, 0x07)
    }

    fn run(mut self, t: u8, n: u8, m: u8, cyc: u8) -> Bench {
        self.sync(cyc.wrapping_sub(1));
        self.write(0x18, &[t]);
        self.write(0x1A, &[m, n]);
        self.write(0x17, &[0x55]);
        self.sync(cyc);
        self
    }

    pub fn runs(&self) -> bool {
        self.agent.mode == Mode::Run
    }

    pub fn ticks(&mut self, count: usize) {
        let held = self.agent.registers.inputs();
        for _ in 0..count {
            self.agent.tick(&held).expect("a sound state");
        }
    }

    pub fn say(&mut self, port: u8, draft: &Draft) -> Outcome {
        self.agent.frame(port, &draft.body(), &mut self.buffer)
    }

    pub fn assign(&mut self, src: u32, sid: u32) -> u8 {
        let assignment = SidAssignment {
            src,
            sec: 9,
            mac: 1,
            sid,
        };
        self.say(1, &speech::sid(BROADCAST, assignment)).number
    }

    /// A sync of the concentrator that spoke last.
    pub fn sync(&mut self, cyc: u8) -> u8 {
        self.sync_of(self.src, cyc)
    }

    pub fn sync_of(&mut self, src: u32, cyc: u8) -> u8 {
        let number = self.say(1, &speech::sync(src, cyc)).number;
        if number == 0 {
            (self.src, self.cyc) = (src, cyc);
            // The first SEQ is the negative of CYC.
            self.seq = 0_u8.wrapping_sub(cyc);
        }
        number
    }

    pub fn head(&self) -> Head {
        Head {
            dest: OWN,
            src: self.src,
            cyc: self.cyc,
            seq: self.seq,
        }
    }

    /// So many requests are lost on the way.
    pub fn lose(&mut self, count: u8) {
        self.seq = self.seq.wrapping_add(count);
    }

    /// The next one: due if the one before it was taken.
    pub fn write(&mut self, add: u8, data: &[u8]) -> u8 {
        let head = self.next_head();
        self.say(1, &speech::write(0x90, head, add, data)).number
    }

    /// The next one; number and reply.
    pub fn read(&mut self, datl: u8, add: u8) -> (u8, Option<(Frame, Vec<u8>)>) {
        let head = self.next_head();
        let outcome = self.say(1, &speech::read(0x90, head, datl, add));
        (outcome.number, self.reply(outcome))
    }

    fn next_head(&mut self) -> Head {
        let head = self.head();
        self.seq = self.seq.wrapping_add(1);
        head
    }

    /// The reply as its receiver reads it.
    pub fn reply(&self, outcome: Outcome) -> Option<(Frame, Vec<u8>)> {
        let inner = self.buffer[..outcome.sent].get(1..outcome.sent.max(2) - 1)?;
        let received = frame::read(inner).ok()?;
        (received.address == 0xF0).then_some((received.frame, received.data))
    }

    pub fn register(&self, place: u8) -> u8 {
        self.agent.registers[place]
    }
}
