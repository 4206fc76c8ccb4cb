//! Requests and syncs in the wrong cycle, repeated, and out of order.

use super::super::speech;
use super::cycles::write_outputs;
use super::stage::Stage;
use crate::frame::Head;
use crate::module::first_seq;

/// Requests of other cycles, and of this one before its sync.
pub fn cycle(stage: &mut Stage) {
    stage.some_mode(4);
    for _ in 0..3 {
        let step = stage.random.pick(&[1, 0xFF, 2, 0x80]);
        let cyc = stage.agent().cycle.wrapping_add(step);
        let seq = stage.random.pick(&[first_seq(cyc), stage.head().seq]);
        let (address, head) = (
            stage.address(),
            Head {
                cyc,
                seq,
                ..stage.head()
            },
        );
        stage.send(&speech::read(address, head, 1, 0x20));
    }
    stage.ticks(stage.cycle_left());
    write_unheard(stage);
    stage.begin_cycle();
    stage.read(7, 0x1E);
}

/// The clock has ended the cycle; the new one is not heard yet.
fn write_unheard(stage: &mut Stage) {
    if stage.agent().heard {
        return;
    }
    let old = stage.agent().cycle.wrapping_sub(1);
    for cyc in [stage.agent().cycle, old] {
        let (address, seq) = (stage.address(), first_seq(cyc));
        let head = Head {
            cyc,
            seq,
            ..stage.head()
        };
        stage.send(&speech::write(address, head, 0x80, &[0xFF]));
    }
}

/// Requests taken before, on both ports; with a repeated sync between, which changes nothing.
pub fn repeats(stage: &mut Stage) {
    stage.some_mode(6);
    stage.begin_cycle();
    let first = stage.due_write(0x80, &[1]).body();
    stage.say_on(1, &first);
    stage.say_on(2, &first);
    let second = stage.due_read(4, 0x80).body();
    stage.say_on(2, &second);
    stage.say_on(1, &second);
    let sync = speech::sync(stage.active(), stage.agent().cycle).body();
    stage.say(&sync);
    stage.say(&first);
    stage.say(&second);
    stage.read(1, 0x19);
}

/// Four or more left out, or one before the first.
pub fn order(stage: &mut Stage) {
    stage.some_mode(8);
    for _ in 0..4 {
        let taken = stage.agent().taken;
        let any = stage.random.byte();
        let distance = stage.random.pick(&[taken + 4, taken + 5, 0xFF, 0x80, any]);
        let (address, head) = (stage.address(), stage.head_at(distance));
        stage.send(&speech::write(address, head, 0x80, &[0xEE]));
        if stage.random.one_in(2) {
            stage.read(1, 0x20);
        }
    }
}

/// Syncs of any cycle from the active one; in RUN most mean fallback.
pub fn sync(stage: &mut Stage) {
    stage.some_mode(1);
    if stage.random.one_in(3) {
        stage.ticks(stage.cycle_left().min(stage.patience()));
    }
    if stage.running() {
        write_outputs(stage);
    }
    let step = stage.random.pick(&[0, 0, 2, 3, 0xFF, 0xFE, 0x80]);
    let cyc = stage.agent().cycle.wrapping_add(step);
    stage.sync(stage.active(), cyc);
    stage.read(2, 0x18);
}

/// Anything said before, said again.
pub fn echo(stage: &mut Stage) {
    for _ in 0..4 {
        stage.echo();
    }
}
