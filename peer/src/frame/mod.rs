//! The frames of tables 4 to 12: one enum of all kinds, and the codes that tell them apart.

mod reading;
mod writing;

pub use reading::{check_crc, form, read, Received};
pub use writing::{content, seal, write};

pub const BROADCAST: u8 = 0xFF;
pub const SID_MAX: u32 = 0xFF_FFFF;
pub const SAFE_RESPONSE_DATL_MAX: u8 = 254;

pub mod typ {
    pub const SYNC: u8 = 0x00;
    pub const SAFE_REQUEST: u8 = 0x07;
    pub const PLAIN_REQUEST: u8 = 0x08;
    pub const SAFE_RESPONSE: u8 = 0x70;
    pub const PLAIN_RESPONSE: u8 = 0x80;
    pub const TID_ASSIGNMENT: u8 = 0x3C;
    pub const SID_ASSIGNMENT: u8 = 0xC3;
    pub const ACKNOWLEDGEMENT: u8 = 0x33;
    pub const INVARIANTS: u8 = 0xB4;

    pub const BUILT: [u8; 9] = [
        SYNC,
        SAFE_REQUEST,
        PLAIN_REQUEST,
        SAFE_RESPONSE,
        PLAIN_RESPONSE,
        TID_ASSIGNMENT,
        SID_ASSIGNMENT,
        ACKNOWLEDGEMENT,
        INVARIANTS,
    ];
}

pub mod com {
    pub const SAFE_WRITE: u8 = 0x77;
    pub const SAFE_READ: u8 = 0x88;
    pub const PLAIN_WRITE: u8 = 0x01;
    pub const PLAIN_READ: u8 = 0x02;
    pub const SAFE_TO_SYNC: u8 = 0x07;
    pub const SAFE_TO_READ: u8 = 0x70;
    pub const PLAIN_TO_SYNC: u8 = 0x01;
    pub const PLAIN_TO_READ: u8 = 0x02;
    pub const ERROR_TO_SYNC: u8 = 0xAA;
    pub const ERROR_TO_READ: u8 = 0x55;
}

/// What the safe requests, responses and invariants begin with.
#[derive(Clone, Copy, Debug, PartialEq, Eq)]
pub struct Head {
    pub dest: u32,
    pub src: u32,
    pub cyc: u8,
    pub seq: u8,
}

/// The registers that a request or response is about.
#[derive(Clone, Copy, Debug, PartialEq, Eq)]
pub struct Span {
    pub datl: u8,
    pub add: u8,
}

#[derive(Clone, Copy, Debug, PartialEq, Eq)]
pub struct SidAssignment {
    pub src: u32,
    pub sec: u32,
    pub mac: u64,
    pub sid: u32,
}

/// All fields but TYP, the safety CRC, a COM that the kind already fixes, and the data bytes.
#[derive(Clone, Copy, Debug, PartialEq, Eq)]
pub enum Frame {
    Sync {
        src: u32,
        cyc: u8,
    },
    SafeRead {
        head: Head,
        span: Span,
    },
    SafeWrite {
        head: Head,
        span: Span,
    },
    PlainRead {
        src: u8,
        span: Span,
    },
    PlainWrite {
        src: u8,
        span: Span,
    },
    SafeResponse {
        head: Head,
        com: u8,
        span: Span,
        stat: u8,
    },
    PlainSyncAnswer {
        src: u8,
        span: Span,
        stat: u8,
    },
    PlainResponse {
        src: u8,
        com: u8,
        span: Span,
    },
    TidAssignment {
        src: u8,
        iid: u64,
        tid: u8,
    },
    SidAssignmentSil2(SidAssignment),
    SidAssignmentSil4 {
        first: SidAssignment,
        sid2: u32,
        src2: u32,
    },
    Acknowledgement {
        src: u32,
        dst: u32,
        sec: u32,
        mac: u64,
    },
    Invariants {
        head: Head,
        configuration: u16,
        logic: u16,
    },
}

/// Whether a frame of this TYP ends with the safety CRC; `None` for a TYP that is not built.
pub fn safe(typ: u8) -> Option<bool> {
    match typ {
        typ::SYNC
        | typ::SAFE_REQUEST
        | typ::SAFE_RESPONSE
        | typ::SID_ASSIGNMENT
        | typ::ACKNOWLEDGEMENT
        | typ::INVARIANTS => Some(true),
        typ::PLAIN_REQUEST | typ::PLAIN_RESPONSE | typ::TID_ASSIGNMENT => Some(false),
        _ => None,
    }
}

/// A safe response with this COM and DATL is in table 7.
fn safe_response_allowed(com: u8, datl: u8) -> bool {
    match com {
        com::SAFE_TO_SYNC | com::SAFE_TO_READ => datl <= SAFE_RESPONSE_DATL_MAX,
        com::ERROR_TO_SYNC | com::ERROR_TO_READ => datl == 0,
        _ => false,
    }
}

/// A non-safe response without status byte, with this COM and DATL, is in table 8.
fn plain_response_allowed(com: u8, datl: u8) -> bool {
    match com {
        com::PLAIN_TO_READ => true,
        com::ERROR_TO_SYNC | com::ERROR_TO_READ => datl == 0,
        _ => false,
    }
}
