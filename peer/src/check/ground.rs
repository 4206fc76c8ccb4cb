//! Register 26h, the ground of the last passage from RUN to fallback: what writes it, what shows it, and
//! what keeps it.

use super::host::refused;
use super::module::{Bench, FIRST, OWN};
use super::Tally;
use crate::frame::Head;
use crate::generate::speech;
use crate::module::ground::{shown, Ground};
use crate::module::{Agent, Fixed, Mode};

const GROUND: u8 = 0x26;

/// What 26h may hold.
const VALUES: [u8; 6] = [0, 1, 2, 3, 4, 5];

type Act = (&'static str, fn(&mut Bench));

/// From a module in RUN as `running` has it, the way with each ground in the order of their numbers.
const WAYS: [Act; 5] = [
    ("sync silence", |bench| bench.ticks(64)),
    ("command silence", |bench| {
        bench.agent.since_output = 143;
        bench.ticks(1);
    }),
    ("wrong cycle", |bench| {
        bench.sync(0x20);
    }),
    ("order", |bench| {
        bench.write(0x17, &[0xAA]);
    }),
    ("window", |bench| {
        bench.ticks(5);
        bench.sync(0x08);
        bench.ticks(11);
    }),
];

/// In fallback, a sync accepted just before: none of these leads to RUN or comes from it.
const IN_FALLBACK: [Act; 7] = [
    ("silence", |bench| bench.ticks(63)),
    ("the sync limit", |bench| bench.ticks(64)),
    ("long silence", |bench| bench.ticks(70_000)),
    ("an order", |bench| {
        bench.write(0x17, &[0xAA]);
    }),
    ("an order after a release", |bench| {
        bench.write(0x17, &[0x55]);
        bench.write(0x17, &[0xAA]);
    }),
    ("the sync limit after a release", |bench| {
        bench.write(0x17, &[0x55]);
        bench.ticks(64);
    }),
    ("a request of another cycle", other_cycle),
];

/// In RUN: none of these leads to fallback.
const IN_RUN: [Act; 7] = [
    ("22", |bench| {
        bench.sync(0x08);
    }),
    ("55h to 17h", |bench| {
        bench.write(0x17, &[0x55]);
    }),
    ("an output write", |bench| {
        bench.write(0x80, &[1]);
    }),
    ("ticks over a clock end", |bench| bench.ticks(40)),
    ("a request of another cycle", other_cycle),
    ("a stranger", |bench| {
        bench.sync_of(0x33_CC33, 0x20);
    }),
    ("an assignment", |bench| {
        bench.assign(FIRST, OWN);
    }),
];

fn other_cycle(bench: &mut Bench) {
    let head = Head {
        cyc: 0x77,
        ..bench.head()
    };
    bench.say(1, &speech::read(0x90, head, 1, 0x10));
}

pub fn run(tally: &mut Tally) {
    numbers(tally);
    power_up(tally);
    for (number, way) in (1..).zip(WAYS) {
        passage(tally, number, way);
        for act in IN_FALLBACK {
            again(tally, number, way, act);
        }
        run_again(tally, number, way);
        for (next, other) in (1..).zip(WAYS) {
            last_counts(tally, way, next, other);
        }
    }
    for value in VALUES {
        one_tick(tally, value);
        in_run(tally, value);
    }
    meetings(tally);
    beside(tally);
    wrong_cycle(tally);
    for bench in [Bench::named(), running()] {
        writes(tally, &bench);
        reads(tally, &bench);
        sync_replies(tally, &bench);
        unsound(tally, &bench.agent);
    }
    unsound(tally, &Agent::power_up(1, 2, 0, Fixed::DOORS));
}

/// In RUN, t 16, n 4, m 9, cycle 07h, outputs on.
fn running() -> Bench {
    let mut bench = Bench::running(16, 4, 9, 0x07);
    bench.write(0x80, &[0x11; 64]);
    bench
}

fn numbers(tally: &mut Tally) {
    let right = Ground::ALL.map(Ground::number) == VALUES[1..];
    tally.check(right, "the grounds are 1 to 5");
    for (number, (name, _)) in (1..).zip(WAYS) {
        tally.check(shown(number) == name, name);
    }
    let others = shown(0) == "none since power-up" && shown(6) == "not a ground";
    tally.check(others && shown(0xFF) == shown(6), "no ground");
}

/// 26h is 00h, 27h to 7Fh are FFh.
fn power_up(tally: &mut Tally) {
    for (mac, iid, ver, limit) in [
        (1, 2, 0, 64),
        (0, 0, 0, 16),
        (u64::MAX, u64::MAX, 0xFFFF, 64),
    ] {
        let agent = Agent::power_up(mac, iid, ver, Fixed { limit });
        let bytes = &agent.registers.bytes;
        let right = bytes[0x26] == 0 && bytes[0x27..0x80].iter().all(|&byte| byte == 0xFF);
        tally.check(right && agent.sound(), &format!("26h, MAC {mac:X}"));
    }
}

/// Whatever 26h showed before, it shows the ground, and nothing else is different.
fn passage(tally: &mut Tally, number: u8, (what, way): Act) {
    let mut plain = running();
    way(&mut plain);
    for before in VALUES {
        let mut bench = running();
        bench.agent.registers[GROUND] = before;
        way(&mut bench);
        let right = !bench.runs() && bench.register(GROUND) == number;
        let same = bench.agent == plain.agent;
        tally.check(right && same, &format!("{what}, 26h {before} before"));
    }
}

/// Back in a heard cycle, in fallback.
fn fallen(way: fn(&mut Bench)) -> Bench {
    let mut bench = running();
    way(&mut bench);
    bench.sync(0x50);
    bench
}

/// Entering fallback in fallback leaves 26h.
fn again(tally: &mut Tally, number: u8, (what, way): Act, (after, act): Act) {
    let mut bench = fallen(way);
    let before = bench.register(GROUND) == number && !bench.runs();
    act(&mut bench);
    let right = bench.register(GROUND) == number && !bench.runs();
    tally.check(before && right, &format!("{what}, then {after}"));
}

/// The way back to RUN leaves 26h, and so do cycles in RUN.
fn run_again(tally: &mut Tally, number: u8, (what, way): Act) {
    let mut bench = fallen(way);
    bench.write(0x17, &[0x55]);
    let released = bench.register(GROUND) == number;
    bench.sync(0x51);
    let entered = bench.runs() && bench.register(GROUND) == number;
    tally.check(released && entered, &format!("RUN again after {what}"));
    bench.write(0x80, &[7]);
    bench.ticks(15);
    let right = bench.sync(0x52) == 0 && bench.runs() && bench.register(GROUND) == number;
    tally.check(right, &format!("a cycle in RUN after {what}"));
}

/// Of two passages the last one counts.
fn last_counts(tally: &mut Tally, (what, way): Act, next: u8, (other, last): Act) {
    let mut bench = fallen(way);
    bench.write(0x17, &[0x55]);
    bench.sync(0x06);
    // As `running` has it.
    bench.ticks(15);
    bench.sync(0x07);
    bench.write(0x80, &[0x11; 64]);
    let before = bench.runs();
    last(&mut bench);
    let right = before && !bench.runs() && bench.register(GROUND) == next;
    tally.check(right, &format!("{what}, then {other}"));
}

/// One ms before each of the limits, and before a clock end with the mark, in all combinations.
fn one_tick(tally: &mut Tally, value: u8) {
    for (sync, output, ended, mark) in (0..16).map(|case| {
        let bit = |place: u8| case >> place & 1 == 1;
        (bit(0), bit(1), bit(2), bit(3))
    }) {
        let mut bench = running();
        bench.agent.registers[GROUND] = value;
        bench.agent.since_sync = if sync { 63 } else { 62 };
        bench.agent.since_output = if output { 143 } else { 142 };
        bench.agent.in_cycle = if ended { 15 } else { 14 };
        bench.agent.mark = mark as u8;
        let (falls, wanted) = match (sync, output, ended && mark) {
            (true, _, _) => (true, 1),
            (false, true, _) => (true, 2),
            (false, false, true) => (true, 5),
            (false, false, false) => (false, value),
        };
        bench.ticks(1);
        let right = bench.runs() != falls && bench.register(GROUND) == wanted;
        let what = format!("one tick: sync {sync}, output {output}, end {ended}, mark {mark}");
        tally.check(right, &what);
    }
}

/// By frames and ticks alone, from the entry to RUN: n and m, the cycle that the module does not outlast,
/// whether a sync misses its window there, and the ground.
fn meetings(tally: &mut Tally) {
    for (n, m, cycle, marked, number) in [
        (1, 1, 1, false, 1),
        (2, 2, 2, false, 1),
        (1, 1, 1, true, 1),
        (3, 3, 3, true, 1),
        (1, 2, 1, false, 1),
        (2, 3, 2, true, 1),
        (2, 1, 1, false, 2),
        (9, 3, 3, false, 2),
        (2, 1, 1, true, 2),
        (9, 3, 3, true, 2),
        (9, 9, 1, true, 5),
        (3, 3, 2, true, 5),
    ] {
        let mut bench = Bench::running(16, n, m, 0x07);
        bench.ticks(16 * (cycle - 1));
        let next = bench.agent.cycle + 1;
        let missed = !marked || bench.sync(next) == 22;
        bench.ticks(15);
        let before = bench.runs() && bench.register(GROUND) == 0;
        bench.ticks(1);
        let right = missed && before && !bench.runs() && bench.register(GROUND) == number;
        tally.check(right, &format!("n {n}, m {m}, marked {marked}: {number}"));
    }
}

/// A last sync one ms before the clock end, at it or one ms after it: the sync limit comes first by one
/// ms, with the other or after it.
fn beside(tally: &mut Tally) {
    for (last, ticks, number) in [(15, 32, 1), (16, 32, 1), (17, 31, 2)] {
        let mut bench = Bench::running(16, 2, 3, 0x07);
        bench.ticks(last);
        let synced = bench.sync(0x08) == 0;
        bench.ticks(ticks - 1);
        let before = bench.runs();
        bench.ticks(1);
        let right = synced && before && !bench.runs() && bench.register(GROUND) == number;
        tally.check(right, &format!("last sync at {last}: {number}"));
        // The other limit is reached too, in fallback.
        bench.ticks(2);
        tally.check(bench.register(GROUND) == number, "the other limit later");
    }
}

/// What 12 changes for a sync in RUN: bit 1, CPT_SEQ, and all that entering fallback does.
fn wrong_cycle(tally: &mut Tally) {
    for (cyc, mark) in [(0x09, 0), (0x06, 0), (0x20, 1), (0x87, 1)] {
        let mut bench = running();
        bench.ticks(5);
        bench.agent.mark = mark;
        let mut wanted = bench.agent.clone();
        (wanted.mode, wanted.mark, wanted.since_output) = (Mode::Fallback, 0, 0);
        wanted.registers.bytes[0x80..0xC0].fill(0);
        wanted.registers[0x17] = 0xAA;
        wanted.registers[0x19] = 0x82;
        wanted.registers[0x20] = 1;
        wanted.registers[GROUND] = 3;
        let right = bench.sync(cyc) == 12 && bench.agent == wanted;
        tally.check(right, &format!("12 to CYC {cyc:02X}"));
    }
}

/// What does not leave RUN leaves 26h.
fn in_run(tally: &mut Tally, value: u8) {
    for (what, act) in IN_RUN {
        let mut bench = running();
        bench.agent.registers[GROUND] = value;
        act(&mut bench);
        let right = bench.runs() && bench.register(GROUND) == value;
        tally.check(right, &format!("26h {value} in RUN: {what}"));
    }
}

/// A write that covers 26h is 16 and counts as a request; nothing else changes.
fn writes(tally: &mut Tally, start: &Bench) {
    let mut start = start.clone();
    start.ticks(14);
    start.sync(0x08);
    let mode = start.agent.mode;
    for add in 0..=GROUND {
        let mut right = true;
        for length in (GROUND - add) as usize + 1..=255 {
            for byte in [0x00, 0x05, 0x55, 0xAA] {
                let mut bench = start.clone();
                let number = bench.write(add, &vec![byte; length]);
                let taken = start.agent.taken + 1;
                let wanted = Agent {
                    taken,
                    ..start.agent.clone()
                };
                right &= number == 16 && bench.agent == wanted;
            }
        }
        tally.check(
            right,
            &format!("writes from {add:02X}h over 26h in {mode:?}"),
        );
    }
}

/// A read that covers 26h shows it.
fn reads(tally: &mut Tally, start: &Bench) {
    let mut start = start.clone();
    start.ticks(14);
    start.sync(0x08);
    let mode = start.agent.mode;
    for add in 0..=GROUND {
        let mut right = true;
        let place = (GROUND - add) as usize;
        let longest = (256 - add as usize).min(254) as u8;
        for (value, datl) in (0..).zip(place as u8 + 1..=longest) {
            let mut bench = start.clone();
            bench.agent.registers[GROUND] = value % 6;
            let (number, reply) = bench.read(datl, add);
            let data = reply.map_or(Vec::new(), |(_, data)| data);
            right &= number == 0 && data.get(place) == Some(&(value % 6));
            right &= bench.register(GROUND) == value % 6;
        }
        tally.check(
            right,
            &format!("reads from {add:02X}h over 26h in {mode:?}"),
        );
    }
}

/// The reply to a sync shows 26h where AD_REF and SZ_REF reach it, that of the entry to RUN too.
fn sync_replies(tally: &mut Tally, start: &Bench) {
    for (add, size) in [
        (0x26, 1),
        (0x25, 2),
        (0x20, 7),
        (0x26, 90),
        (0x00, 254),
        (0x02, 254),
    ] {
        let mut right = true;
        for (value, release) in VALUES
            .into_iter()
            .flat_map(|value| [(value, 0xAA), (value, 0x55)])
        {
            let mut bench = start.clone();
            bench.ticks(14);
            bench.agent.registers.put(0x1C, &[add, size]);
            bench.agent.registers[GROUND] = value;
            if !start.runs() {
                bench.agent.registers[0x17] = release;
            }
            let outcome = bench.say(1, &speech::sync(FIRST, 0x08));
            let data = bench.reply(outcome).map_or(Vec::new(), |(_, data)| data);
            right &= data.get((GROUND - add) as usize) == Some(&value);
            right &= bench.runs() == (start.runs() || release == 0x55);
        }
        let mode = start.agent.mode;
        tally.check(right, &format!("sync reply from {add:02X}h in {mode:?}"));
    }
}

/// 26h is 0 to 5.
fn unsound(tally: &mut Tally, sound: &Agent) {
    for value in 0..=0xFF {
        let mut agent = sound.clone();
        agent.registers[GROUND] = value;
        let what = format!("26h {value} in {:?}", agent.mode);
        match VALUES.contains(&value) {
            true => tally.check(agent.sound(), &what),
            false => refused(tally, &what, agent),
        }
    }
}
