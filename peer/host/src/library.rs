//! The static library as `include/saturn.h` declares it.

use std::mem::offset_of;

pub const RECORDED_MAX: usize = 8;

#[repr(C)]
#[derive(Clone, Copy, Debug, PartialEq, Eq)]
pub struct SaturnFixed {
    pub limit: u8,
}

#[repr(C)]
#[derive(Clone, Copy, Debug, PartialEq, Eq)]
pub struct SaturnAgent {
    pub regs: [u8; 256],
    pub known: [u32; RECORDED_MAX],
    pub last: u32,
    pub silence: u16,
    pub idle: u16,
    pub cycle: u8,
    pub elapsed: u8,
    pub taken: u8,
    pub mode: u8,
    pub heard: u8,
    pub mark: u8,
    pub count: u8,
    pub fixed: SaturnFixed,
}

const _: () = assert!(size_of::<SaturnAgent>() == 304 && align_of::<SaturnAgent>() == 4);
const _: () = assert!(offset_of!(SaturnAgent, mark) == 301);
const _: () = assert!(offset_of!(SaturnAgent, count) == 302);
const _: () = assert!(offset_of!(SaturnAgent, fixed.limit) == 303);

pub const FALLBACK: u8 = 0;
pub const RUN: u8 = 1;

extern "C" {
    pub fn saturn_power_up(agent: *mut SaturnAgent, mac: u64, iid: u64, ver: u16, limit: u8);
    pub fn saturn_tick(agent: *mut SaturnAgent, inputs: *const u8, inputs_length: usize) -> u8;
    pub fn saturn_frame(
        agent: *mut SaturnAgent,
        port: u8,
        body: *const u8,
        body_length: usize,
        reply: *mut u8,
        reply_length: usize,
        sent: *mut u16,
    ) -> u8;
}
