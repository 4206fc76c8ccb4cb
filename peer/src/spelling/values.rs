//! A frame and its address as the values of a kind's fields, and back.

use super::kinds::{self, Kind};
use super::line::Spelled;
use crate::frame::{Frame, Head, SidAssignment, Span, BROADCAST};

/// The address and the frame. DATL is the count of data bytes, 255 for more.
pub fn frame_of(spelled: &Spelled) -> (u8, Frame) {
    let values = &mut Values {
        left: spelled.values.iter(),
    };
    let datl = spelled.data.len().min(0xFF) as u8;
    match spelled.kind.name {
        "sync" => {
            let (src, cyc) = (values.wide(), values.byte());
            (BROADCAST, Frame::Sync { src, cyc })
        }
        name => (values.byte(), addressed(name, values, datl)),
    }
}

fn addressed(name: &str, values: &mut Values, datl: u8) -> Frame {
    match name {
        "read" => Frame::SafeRead {
            head: values.head(),
            span: values.asked(),
        },
        "write" => Frame::SafeWrite {
            head: values.head(),
            span: values.span(datl),
        },
        "response" => {
            let (head, com) = (values.head(), values.byte());
            let (span, stat) = (values.span(datl), values.byte());
            Frame::SafeResponse {
                head,
                com,
                span,
                stat,
            }
        }
        "invariants" => Frame::Invariants {
            head: values.head(),
            configuration: values.next() as u16,
            logic: values.next() as u16,
        },
        "sid" => Frame::SidAssignmentSil2(values.assignment()),
        "sid4" => Frame::SidAssignmentSil4 {
            first: values.assignment(),
            sid2: values.wide(),
            src2: values.wide(),
        },
        "ack" => Frame::Acknowledgement {
            src: values.wide(),
            dst: values.wide(),
            sec: values.wide(),
            mac: values.next(),
        },
        name => plain(name, values, datl),
    }
}

/// The frames without a safety CRC.
fn plain(name: &str, values: &mut Values, datl: u8) -> Frame {
    let src = values.byte();
    match name {
        "plain-read" => Frame::PlainRead {
            src,
            span: values.asked(),
        },
        "plain-write" => Frame::PlainWrite {
            src,
            span: values.span(datl),
        },
        "plain-sync-response" => Frame::PlainSyncAnswer {
            src,
            span: values.span(datl),
            stat: values.byte(),
        },
        "plain-response" => Frame::PlainResponse {
            src,
            com: values.byte(),
            span: values.span(datl),
        },
        _ => Frame::TidAssignment {
            src,
            iid: values.next(),
            tid: values.byte(),
        },
    }
}

struct Values<'a> {
    left: std::slice::Iter<'a, u64>,
}

impl Values<'_> {
    fn next(&mut self) -> u64 {
        *self.left.next().expect("a value for each field")
    }

    fn byte(&mut self) -> u8 {
        self.next() as u8
    }

    fn wide(&mut self) -> u32 {
        self.next() as u32
    }

    fn head(&mut self) -> Head {
        Head {
            dest: self.wide(),
            src: self.wide(),
            cyc: self.byte(),
            seq: self.byte(),
        }
    }

    fn span(&mut self, datl: u8) -> Span {
        Span {
            datl,
            add: self.byte(),
        }
    }

    /// The span of a read: its length is a field.
    fn asked(&mut self) -> Span {
        Span {
            datl: self.byte(),
            add: self.byte(),
        }
    }

    fn assignment(&mut self) -> SidAssignment {
        SidAssignment {
            src: self.wide(),
            sec: self.wide(),
            mac: self.next(),
            sid: self.wide(),
        }
    }
}

/// The other way: the kind and the values of its fields.
pub fn values_of(address: u8, frame: &Frame) -> (&'static Kind, Vec<u64>) {
    let to = address as u64;
    let (name, values) = match *frame {
        Frame::Sync { src, cyc } => ("sync", vec![src as u64, cyc as u64]),
        Frame::SafeRead { head, span } => ("read", behind(to, head, &[span.datl, span.add])),
        Frame::SafeWrite { head, span } => ("write", behind(to, head, &[span.add])),
        Frame::SafeResponse {
            head,
            com,
            span,
            stat,
        } => ("response", behind(to, head, &[com, span.add, stat])),
        Frame::Invariants {
            head,
            configuration,
            logic,
        } => {
            let crcs = [configuration as u64, logic as u64];
            (
                "invariants",
                [behind(to, head, &[]), crcs.to_vec()].concat(),
            )
        }
        Frame::SidAssignmentSil2(first) => ("sid", assigned(to, first)),
        Frame::SidAssignmentSil4 { first, sid2, src2 } => {
            let second = [sid2 as u64, src2 as u64];
            ("sid4", [assigned(to, first), second.to_vec()].concat())
        }
        Frame::Acknowledgement { src, dst, sec, mac } => {
            ("ack", vec![to, src as u64, dst as u64, sec as u64, mac])
        }
        _ => plain_values(to, frame),
    };
    let kind = kinds::named(name.as_bytes()).expect("a kind of the table");
    (kind, values)
}

fn plain_values(to: u64, frame: &Frame) -> (&'static str, Vec<u64>) {
    match *frame {
        Frame::PlainRead { src, span } => ("plain-read", bytes(to, &[src, span.datl, span.add])),
        Frame::PlainWrite { src, span } => ("plain-write", bytes(to, &[src, span.add])),
        Frame::PlainSyncAnswer { src, span, stat } => {
            ("plain-sync-response", bytes(to, &[src, span.add, stat]))
        }
        Frame::PlainResponse { src, com, span } => {
            ("plain-response", bytes(to, &[src, com, span.add]))
        }
        Frame::TidAssignment { src, iid, tid } => ("tid", vec![to, src as u64, iid, tid as u64]),
        _ => unreachable!("the safe kinds are told before"),
    }
}

fn bytes(to: u64, bytes: &[u8]) -> Vec<u64> {
    let mut values = vec![to];
    values.extend(bytes.iter().map(|&byte| byte as u64));
    values
}

fn behind(to: u64, head: Head, then: &[u8]) -> Vec<u64> {
    let mut values = vec![to, head.dest as u64, head.src as u64];
    values.extend([head.cyc as u64, head.seq as u64]);
    values.extend(then.iter().map(|&byte| byte as u64));
    values
}

fn assigned(to: u64, first: SidAssignment) -> Vec<u64> {
    vec![
        to,
        first.src as u64,
        first.sec as u64,
        first.mac,
        first.sid as u64,
    ]
}
