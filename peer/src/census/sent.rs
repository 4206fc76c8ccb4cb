//! What a sent reply is for the line load: its kind, and what stuffing adds to it.

use crate::body;
use crate::frame::{self, com, Frame, SAFE_RESPONSE_DATL_MAX};

/// Address and FCS around the application data, and the two flags.
const AROUND: usize = 1 + 2 + 2;

pub fn events(reply: &[u8]) -> Vec<&'static str> {
    let inner = &reply[1..reply.len() - 1];
    let body = body::read(inner).expect("a reply is a right body");
    let frame = frame::read(inner).expect("a reply is a right frame").frame;
    let stuffing = reply.len() - AROUND - body.application.len();
    let others = [
        ("stuffing", stuffing > 0),
        ("stuffing of 64 bytes or more", stuffing >= 64),
        ("reply of 254 data bytes", longest(&frame)),
    ];
    let came = others.into_iter().filter(|&(_, came)| came);
    let mut events: Vec<&str> = came.map(|(what, _)| what).collect();
    events.extend(kind(&frame));
    events
}

fn kind(frame: &Frame) -> Option<&'static str> {
    match frame {
        Frame::Acknowledgement { .. } => Some("acknowledgement"),
        Frame::SafeResponse { com, .. } if *com == com::ERROR_TO_SYNC => Some("error reply AAh"),
        Frame::SafeResponse { com, .. } if *com == com::ERROR_TO_READ => Some("error reply 55h"),
        _ => None,
    }
}

fn longest(frame: &Frame) -> bool {
    matches!(frame, Frame::SafeResponse { span, .. } if span.datl == SAFE_RESPONSE_DATL_MAX)
}
