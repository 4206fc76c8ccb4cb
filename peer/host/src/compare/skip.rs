//! Every skip of 0 to 4 numbers at every k near 0, 16 and 64, with either limit of requests: reads, writes
//! and writes outside the rules, in both modes and muted, with CPT_SEQ near its end. Then the numbers skipped
//! come late.

use crate::call::{compared, Call};
use crate::tally::Tally;
use host::state;
use peer::frame::Head;
use peer::generate::draft::Draft;
use peer::generate::random::Random;
use peer::generate::speech;
use peer::module::registers::{
    CONF, CPT_SEQ, HOLD, OUTPUTS, OUT_REP, RELEASE, REP, SILENT, STATUT,
};
use peer::module::{first_seq, Agent, Fixed, Mode, LIMITS, REPLY_ROOM};
use std::ops::RangeInclusive;

/// The address of all modules.
const MODULES: u8 = 0x90;
const OWN: u32 = 0x12_3456;
const SOURCE: u32 = 0x11_EE11;

/// Those above the limit are unsound.
const TAKEN: [RangeInclusive<u8>; 3] = [0..=4, 12..=19, 60..=67];
const AHEAD: RangeInclusive<u8> = 0..=4;
const COUNTS: [u8; 6] = [0, 251, 252, 253, 254, 255];

type Request = (&'static str, fn(Head) -> Draft);

const REQUESTS: [Request; 9] = [
    ("a read", |head| speech::read(MODULES, head, 8, STATUT)),
    ("a read with error 55h", |head| {
        speech::read(MODULES, head, 255, 0)
    }),
    ("an output write", |head| {
        speech::write(MODULES, head, 0x80, &[1, 2, 3])
    }),
    ("a write to 20h", |head| {
        speech::write(MODULES, head, CPT_SEQ, &[0x30])
    }),
    ("55h to 17h", |head| {
        speech::write(MODULES, head, OUT_REP, &[RELEASE])
    }),
    ("AAh to 17h", |head| {
        speech::write(MODULES, head, OUT_REP, &[HOLD])
    }),
    ("a write to 26h", |head| {
        speech::write(MODULES, head, 0x26, &[1])
    }),
    ("a write to 18h", |head| {
        speech::write(MODULES, head, 0x18, &[9])
    }),
    ("a write of no byte", |head| {
        speech::write(MODULES, head, 0x80, &[])
    }),
];

pub fn check(seed: u64, tally: &mut Tally) -> Result<(), String> {
    let random = &mut Random::new(seed);
    for limit in LIMITS {
        let mut muted = running(limit);
        muted.registers[CONF] = SILENT;
        for agent in [fallback(limit), running(limit), muted] {
            every_skip(random, agent, tally)?;
        }
    }
    Ok(())
}

fn every_skip(random: &mut Random, mut agent: Agent, tally: &mut Tally) -> Result<(), String> {
    for taken in TAKEN.into_iter().flatten() {
        for count in COUNTS {
            (agent.taken, agent.registers[CPT_SEQ]) = (taken, count);
            for ahead in AHEAD {
                for request in REQUESTS {
                    agent.cycle = random.byte();
                    course(random, &agent, ahead, request, tally)?;
                }
            }
        }
    }
    Ok(())
}

/// The request; then the numbers from the due one on, of which it has skipped some or was refused; then the
/// one after it.
fn course(
    random: &mut Random,
    agent: &Agent,
    ahead: u8,
    (what, said): Request,
    tally: &mut Tally,
) -> Result<(), String> {
    let mut state = state::laid_out(agent, &state::BLANK);
    let (taken, limit) = (agent.taken, agent.fixed.limit);
    for (place, number) in [ahead].into_iter().chain(0..=ahead + 1).enumerate() {
        let call = Call::Frame {
            port: random.pick(&[1, 2]),
            body: said(head(agent, taken + number)).body(),
            room: REPLY_ROOM,
        };
        let left = compared(&state, &call).map_err(|difference| {
            format!("{what}, k {taken}, {ahead} ahead, then {number}: {difference}")
        })?;
        tally.add_limited(&format!("answer {:2}", left.answer), limit);
        match (place, left.answer) {
            (0, answer) => tally.add(&met(limit, ahead, answer)),
            (_, 13) if number < ahead => tally.add(&late(limit)),
            _ => {}
        }
        state = left.state;
    }
    Ok(())
}

fn head(agent: &Agent, number: u8) -> Head {
    Head {
        dest: OWN,
        src: SOURCE,
        cyc: agent.cycle,
        seq: first_seq(agent.cycle).wrapping_add(number),
    }
}

/// With a SID and one concentrator, in a heard cycle.
fn fallback(limit: u8) -> Agent {
    let mut agent = Agent::power_up(1, 2, 0, Fixed { limit });
    agent.registers.set_sid(OWN);
    agent.recorded.push(SOURCE);
    agent.source = Some(SOURCE);
    agent.heard = true;
    agent
}

/// The same in RUN, outputs on.
fn running(limit: u8) -> Agent {
    let mut agent = fallback(limit);
    agent.mode = Mode::Run;
    agent.registers[OUT_REP] = RELEASE;
    agent.registers[STATUT] &= !REP;
    agent.registers.bytes[OUTPUTS].fill(0x11);
    agent
}

fn met(limit: u8, ahead: u8, answer: u8) -> String {
    format!("limit {limit}, {ahead} ahead: {answer}")
}

fn late(limit: u8) -> String {
    format!("limit {limit}, skipped and late: 13")
}

/// All that must come up.
pub fn all() -> Vec<String> {
    let with = |limit| {
        let taken = (0..=3).flat_map(|ahead| [0, 15, 16, 19].map(|answer| (ahead, answer)));
        let answers = taken.chain([(4, 14), (4, 19)]);
        let skips = answers.map(move |(ahead, answer)| met(limit, ahead, answer));
        skips.chain([late(limit)])
    };
    LIMITS.into_iter().flat_map(with).collect()
}
