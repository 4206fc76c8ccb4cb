//! As many requests as a cycle takes, and more.

use super::super::speech;
use super::stage::Stage;
use crate::module::registers::OUT_REP;

pub fn full_cycle(stage: &mut Stage) {
    stage.some_mode(1);
    stage.begin_cycle();
    for _ in 0..stage.limit() {
        let body = match stage.random.below(4) {
            0 => stage.due_write(0x80, &[1, 2, 3]).body(),
            1 => stage.due_write(0x26, &[1]).body(),
            _ => stage.due_read(1, 0x20).body(),
        };
        stage.say(&body);
    }
    one_more(stage);
}

/// k is at the limit: the due one is too many, and so are the three past it; an old one is a repeat, one
/// further on is out of order. A repeated sync does not make room.
pub fn one_more(stage: &mut Stage) {
    for _ in 0..2 {
        stage.read(1, 0x10);
        stage.write(0x80, &[0x11]);
        stage.write(OUT_REP, &[0x00]);
        let sync = speech::sync(stage.active(), stage.agent().cycle).body();
        stage.say(&sync);
    }
    let limit = stage.limit();
    for distance in [0, limit - 1, limit + 1, limit + 3, limit + 4, 128, 255] {
        let (address, head) = (stage.address(), stage.head_at(distance));
        stage.say(&speech::read(address, head, 1, 0x10).body());
    }
}
