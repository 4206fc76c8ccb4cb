//! The state of the second implementation in the layout of `include/saturn.h`, and back.

use crate::library::{SaturnAgent, SaturnFixed, FALLBACK, RECORDED_MAX, RUN};
use peer::module::registers::Registers;
use peer::module::{Agent, Fixed, Mode, NO_SID};

/// What no sound agent has in these places is left as `before` has it.
pub fn laid_out(agent: &Agent, before: &SaturnAgent) -> SaturnAgent {
    let mut known = before.known;
    known[..agent.recorded.len()].copy_from_slice(&agent.recorded);
    SaturnAgent {
        regs: agent.registers.bytes,
        known,
        last: agent.source.unwrap_or(NO_SID),
        silence: agent.since_sync,
        idle: agent.since_output as u16,
        cycle: agent.cycle,
        elapsed: agent.in_cycle as u8,
        taken: agent.taken,
        mode: match agent.mode {
            Mode::Fallback => FALLBACK,
            Mode::Run => RUN,
        },
        heard: agent.heard as u8,
        mark: agent.mark,
        count: agent.recorded.len() as u8,
        fixed: SaturnFixed {
            limit: agent.fixed.limit,
        },
    }
}

/// `None` if mode or heard is neither of its two values or the count of recorded is above 8: then
/// there is no such agent, and the state is unsound.
pub fn read(state: &SaturnAgent) -> Option<Agent> {
    let count = state.count as usize;
    if count > RECORDED_MAX {
        return None;
    }
    Some(Agent {
        registers: Registers { bytes: state.regs },
        mode: match state.mode {
            FALLBACK => Mode::Fallback,
            RUN => Mode::Run,
            _ => return None,
        },
        cycle: state.cycle,
        heard: match state.heard {
            0 => false,
            1 => true,
            _ => return None,
        },
        mark: state.mark,
        in_cycle: state.elapsed as u16,
        since_sync: state.silence,
        since_output: state.idle as u32,
        taken: state.taken,
        source: (state.last != NO_SID).then_some(state.last),
        recorded: state.known[..count].to_vec(),
        fixed: Fixed {
            limit: state.fixed.limit,
        },
    })
}

/// A state with every byte 0, to lay an agent out over.
pub const BLANK: SaturnAgent = SaturnAgent {
    regs: [0; 256],
    known: [0; RECORDED_MAX],
    last: 0,
    silence: 0,
    idle: 0,
    cycle: 0,
    elapsed: 0,
    taken: 0,
    mode: 0,
    heard: 0,
    mark: 0,
    count: 0,
    fixed: SaturnFixed { limit: 0 },
};
