//! A script by hand: the lines of a concentrator that counts cycles and requests itself, and of others between.

use crate::frame::{Head, SidAssignment, BROADCAST};
use crate::generate::draft::Draft;
use crate::generate::speech;
use crate::hex;

pub const OWN: u32 = 0x7D_5E01;
pub const FIRST: u32 = 0x11_EE11;
pub const SECOND: u32 = 0x22_DD22;

#[derive(Clone)]
pub struct Tape {
    pub lines: Vec<Vec<u8>>,
    src: u32,
    cyc: u8,
    seq: u8,
}

impl Tape {
    /// No line yet.
    pub fn blank() -> Tape {
        Tape {
            lines: Vec::new(),
            src: FIRST,
            cyc: 0,
            seq: 0,
        }
    }

    /// From power-up to RUN with TCYC 10, CNF_CYC 2 and CNF_REP 5, in cycle 07h; two concentrators are recorded.
    pub fn running() -> Tape {
        let mut tape = Tape::blank();
        for src in [FIRST, SECOND] {
            tape.assign(src);
        }
        tape.sync(0x06);
        tape.write(0x18, &[10]);
        tape.write(0x1A, &[5, 2]);
        tape.release();
        tape
    }

    /// The own SID, from this concentrator.
    pub fn assign(&mut self, src: u32) {
        let assignment = SidAssignment {
            src,
            sec: 9,
            mac: 1,
            sid: OWN,
        };
        self.say(1, &speech::sid(BROADCAST, assignment));
    }

    /// 55h to 17h, and the sync of the next cycle, on time.
    pub fn release(&mut self) {
        self.write(0x17, &[0x55]);
        self.ticks(9);
        self.sync(self.cyc.wrapping_add(1));
    }

    pub fn line(&mut self, line: &str) {
        self.lines.push(line.as_bytes().to_vec());
    }

    pub fn ticks(&mut self, count: u32) {
        self.line(&format!("T {count}"));
    }

    pub fn body(&mut self, port: u8, body: &[u8]) {
        self.line(&format!("{port} {}", hex::encode(body)));
    }

    pub fn say(&mut self, port: u8, draft: &Draft) {
        self.body(port, &draft.body());
    }

    /// The line before, on the other port.
    pub fn again(&mut self) {
        let mut line = self.lines.last().expect("a line before").clone();
        line[0] = b'1' + b'2' - line[0];
        self.lines.push(line);
    }

    pub fn sync(&mut self, cyc: u8) {
        self.sync_of(self.src, cyc);
    }

    /// It is this one's turn now.
    pub fn sync_of(&mut self, src: u32, cyc: u8) {
        (self.src, self.cyc, self.seq) = (src, cyc, 0_u8.wrapping_sub(cyc));
        self.say(1, &speech::sync(src, cyc));
    }

    /// The head of the next request.
    pub fn head(&self) -> Head {
        Head {
            dest: OWN,
            src: self.src,
            cyc: self.cyc,
            seq: self.seq,
        }
    }

    /// So many numbers are left out.
    pub fn lose(&mut self, count: u8) {
        self.seq = self.seq.wrapping_add(count);
    }

    pub fn write(&mut self, add: u8, data: &[u8]) {
        self.write_to(0x90, add, data);
    }

    pub fn write_to(&mut self, address: u8, add: u8, data: &[u8]) {
        self.say(1, &speech::write(address, self.head(), add, data));
        self.seq = self.seq.wrapping_add(1);
    }

    pub fn read(&mut self, datl: u8, add: u8) {
        self.say(1, &speech::read(0x90, self.head(), datl, add));
        self.seq = self.seq.wrapping_add(1);
    }
}
