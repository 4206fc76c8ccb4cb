//! What a concentrator says to a module, as drafts.

use super::draft::Draft;
use crate::frame::{self, Frame, Head, SidAssignment, Span, BROADCAST};

pub fn sync(src: u32, cyc: u8) -> Draft {
    draft(BROADCAST, Frame::Sync { src, cyc }, &[])
}

pub fn read(address: u8, head: Head, datl: u8, add: u8) -> Draft {
    let span = Span { datl, add };
    draft(address, Frame::SafeRead { head, span }, &[])
}

/// At most 255 data bytes.
pub fn write(address: u8, head: Head, add: u8, data: &[u8]) -> Draft {
    let datl = data.len() as u8;
    let span = Span { datl, add };
    draft(address, Frame::SafeWrite { head, span }, data)
}

pub fn tid(address: u8, iid: u64, tid: u8) -> Draft {
    let src = 0xF0;
    draft(address, Frame::TidAssignment { src, iid, tid }, &[])
}

pub fn sid(address: u8, assignment: SidAssignment) -> Draft {
    draft(address, Frame::SidAssignmentSil2(assignment), &[])
}

fn draft(address: u8, frame: Frame, data: &[u8]) -> Draft {
    Draft {
        address,
        content: frame::content(&frame, data),
    }
}
