//! The tick call: inputs of the right length and of others, and which calls count as ticks.

use super::module::Bench;
use super::Tally;
use crate::module::ground::Ground;
use crate::module::registers::{GROUND, HOLD, INPUTS, OUTPUTS, OUT_REP, REP, STATUT};
use crate::module::{Agent, Fixed, Mode};
use crate::refusal::Refusal;

/// More calls than any limit has ticks.
const MANY: usize = 70_000;

/// A module, and what one ms makes of it.
struct Start {
    what: &'static str,
    agent: Agent,
    pass: fn(&mut Agent),
}

pub fn run(tally: &mut Tally) {
    for start in starts() {
        for length in (0..=130).filter(|&length| length != 64) {
            refused(tally, &start, length);
        }
        accepted(tally, &start);
    }
    for before in [0, 1, 9, 10, 19] {
        silence(tally, "sync limit", [2, 5], before);
        silence(tally, "output limit", [5, 2], before);
    }
    cycle(tally);
}

fn starts() -> [Start; 6] {
    let start = |what, agent, pass| Start { what, agent, pass };
    let mut running = Bench::running(10, 2, 5, 0x07);
    running.write(0x80, &[7; 64]);
    let [mut cycle, mut marked, mut sync, mut output] = [(); 4].map(|()| running.clone());
    cycle.ticks(9);
    marked.sync(0x08);
    marked.ticks(9);
    sync.ticks(19);
    output.agent.since_output = 49;
    [
        start("power-up", Agent::power_up(1, 2, 0, Fixed::DOORS), one_ms),
        start("RUN", running.agent, one_ms_in_run),
        start("RUN, its cycle ends", cycle.agent, |agent| {
            one_ms_in_run(agent);
            end_cycle(agent);
        }),
        start("RUN, its cycle ends, marked", marked.agent, |agent| {
            one_ms(agent);
            fall_back(agent, Ground::Window);
            end_cycle(agent);
        }),
        start("RUN, at the sync limit", sync.agent, |agent| {
            one_ms(agent);
            fall_back(agent, Ground::SyncSilence);
            end_cycle(agent);
        }),
        start("RUN, at the output limit", output.agent, |agent| {
            one_ms(agent);
            fall_back(agent, Ground::CommandSilence);
        }),
    ]
}

fn one_ms(agent: &mut Agent) {
    agent.in_cycle += 1;
    agent.since_sync += 1;
}

fn one_ms_in_run(agent: &mut Agent) {
    one_ms(agent);
    agent.since_output += 1;
}

fn end_cycle(agent: &mut Agent) {
    agent.cycle += 1;
    (agent.heard, agent.in_cycle, agent.taken) = (false, 0, 0);
}

fn fall_back(agent: &mut Agent, ground: Ground) {
    (agent.mode, agent.since_output, agent.mark) = (Mode::Fallback, 0, 0);
    agent.registers.bytes[OUTPUTS].fill(0);
    agent.registers[OUT_REP] = HOLD;
    agent.registers[STATUT] |= REP;
    agent.registers[GROUND] = ground.number();
}

/// Nothing at all changes.
fn refused(tally: &mut Tally, start: &Start, length: usize) {
    let mut agent = start.agent.clone();
    let answer = agent.tick(&vec![9; length]);
    let right = answer == Err(Refusal::Host) && agent == start.agent;
    tally.check(right, &format!("{}: {length} inputs", start.what));
}

/// The inputs are stored and one ms goes by.
fn accepted(tally: &mut Tally, start: &Start) {
    let inputs: Vec<u8> = (1..=64).collect();
    let (mut agent, mut wanted) = (start.agent.clone(), start.agent.clone());
    wanted.registers.bytes[INPUTS].copy_from_slice(&inputs);
    (start.pass)(&mut wanted);
    let right = agent.tick(&inputs) == Ok(()) && agent == wanted;
    tally.check(right, &format!("{}: 64 inputs", start.what));
}

/// Calls that do not tick are no silence. A limit of 20 comes with the 20th that does, `before`
/// of them before the others.
fn silence(tally: &mut Tally, what: &str, [n, m]: [u8; 2], before: usize) {
    let mut bench = Bench::running(10, n, m, 0x07);
    bench.ticks(before);
    let refused = (0..MANY).all(|_| bench.agent.tick(&[9; 63]) == Err(Refusal::Host));
    tally.check(refused && bench.runs(), &format!("{what}: no ticks"));
    bench.ticks(19 - before);
    tally.check(
        bench.runs(),
        &format!("{what}: {before} ticks of 19 before"),
    );
    bench.ticks(1);
    tally.check(
        !bench.runs(),
        &format!("{what}: {before} ticks of 20 before"),
    );
}

/// Nor do they bring a cycle to its end, one before each that ticks.
fn cycle(tally: &mut Tally) {
    let mut agent = Agent::power_up(1, 2, 0, Fixed::DOORS);
    for tick in 1..=255 {
        let answers = [agent.tick(&[9; 65]), agent.tick(&[9; 64])];
        let expected = if tick < 255 { 0 } else { 1 };
        let right = answers == [Err(Refusal::Host), Ok(())] && agent.cycle == expected;
        tally.check(right, &format!("tick {tick}, after a call that is none"));
    }
}
