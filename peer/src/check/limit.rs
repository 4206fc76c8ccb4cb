//! The limit of requests: both that there are, and every other.

use super::host::refused;
use super::module::Bench;
use super::Tally;
use crate::generate::{self, speech};
use crate::module::{Agent, Fixed};
use crate::refusal::Refusal;
use crate::script::{parse, Line, Player};

const LIMITS: [u8; 2] = [16, 64];

pub fn run(tally: &mut Tally) {
    for limit in LIMITS {
        for taken in 0..=limit {
            turns(tally, limit, taken);
        }
        counts(tally, limit);
    }
    for limit in (0..=0xFF).filter(|limit| !LIMITS.contains(limit)) {
        unfit(tally, limit);
    }
    for (limit, scenes) in [(64, 64), (16, 16), (16, 64)] {
        kept(tally, limit, scenes);
    }
}

/// Every SEQ with k taken: below k 13, more than three past it 14, and of the others 15 from the
/// limit on. A write outside the rules is then 15 too.
fn turns(tally: &mut Tally, limit: u8, taken: u8) {
    let mut start = Bench::limited(limit);
    for _ in 0..taken {
        start.read(1, 0x10);
    }
    let first = start.head().seq.wrapping_sub(taken);
    let mut right = start.agent.taken == taken;
    for distance in 0..=0xFF {
        let mut head = start.head();
        head.seq = first.wrapping_add(distance);
        for (said, answer) in [
            (speech::read(0x90, head, 1, 0x10), 0),
            (speech::write(0x90, head, 0x80, &[1]), 0),
            (speech::write(0x90, head, 0x26, &[1]), 16),
        ] {
            let (expected, next) = match distance {
                _ if distance < taken => (13, taken),
                _ if distance > taken + 3 => (14, taken),
                _ if distance >= limit => (15, taken),
                _ => (answer, distance + 1),
            };
            let mut bench = start.clone();
            right &= bench.say(1, &said).number == expected;
            right &= bench.agent.taken == next;
        }
    }
    tally.check(right, &format!("limit {limit}, {taken} taken: every SEQ"));
}

/// Every k; above the limit it is unsound.
fn counts(tally: &mut Tally, limit: u8) {
    let fallback = Agent::power_up(1, 2, 0, Fixed { limit });
    for sound in [Bench::limited(limit).agent, fallback] {
        for taken in 0..=0xFF {
            let what = format!("limit {limit}, k {taken}");
            let agent = Agent {
                taken,
                ..sound.clone()
            };
            match taken <= limit {
                true => tally.check(agent.sound(), &what),
                false => refused(tally, &what, agent),
            }
        }
    }
}

/// Powered up with it, or with it in RUN: nothing but the limit is different, and that is unsound.
fn unfit(tally: &mut Tally, limit: u8) {
    let fixed = Fixed { limit };
    let powered_up = Agent::power_up(1, 2, 0, fixed);
    let doors = Agent::power_up(1, 2, 0, Fixed::DOORS);
    let what = format!("limit {limit}");
    tally.check(powered_up == Agent { fixed, ..doors }, &what);
    refused(tally, &what, powered_up);
    let running = Bench::limited(64).agent;
    refused(tally, &what, Agent { fixed, ..running });
}

/// No line of a script changes the limit, nor does a call that is refused with 20 or 21; and it is
/// reached. The scenes may be for the other limit.
fn kept(tally: &mut Tally, limit: u8, scenes: u8) {
    let fixed = Fixed { limit };
    let mut player = Player::power_up_as(fixed);
    let (mut right, mut too_many) = (true, 0);
    let script = generate::script_as(Fixed { limit: scenes }, 21, 5000);
    for line in script.split(|&byte| byte == b'\n').filter_map(parse) {
        if let Line::Frame { body, .. } = &line {
            right &= player.agent.frame(1, body, &mut [0; 544]).number == 20;
        }
        right &= player.agent.tick(&[0; 63]) == Err(Refusal::Host);
        let number = player.play_line(line).answer;
        right &= player.agent.fixed == fixed && player.agent.sound();
        too_many += (number == 15) as usize;
    }
    let what = format!("limit {limit}, a script for {scenes}");
    tally.check(right, &what);
    tally.check(too_many >= 10, &format!("{what}: {too_many} times 15"));
}
