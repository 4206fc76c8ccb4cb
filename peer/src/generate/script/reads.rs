//! Reads at the edges of what a reply can carry, and over STATUT on both ports.

use super::stage::Stage;

/// DATL and ADD.
const EDGES: [(u8, u8); 26] = [
    (254, 0x02),
    (254, 0x02),
    (254, 0x03),
    (254, 0x01),
    (254, 0x00),
    (253, 0x03),
    (253, 0x04),
    (255, 0x00),
    (255, 0x00),
    (255, 0x01),
    (255, 0xFF),
    (0, 0x00),
    (0, 0x80),
    (0, 0xFF),
    (1, 0x00),
    (1, 0xFF),
    (2, 0xFF),
    (2, 0xFE),
    (3, 0xFE),
    (128, 0x80),
    (129, 0x80),
    (64, 0xC0),
    (65, 0xC0),
    (90, 0x26),
    (8, 0x7A),
    (200, 0x38),
];

/// Spans with STATUT first, last, inside, and just outside.
const OVER_STATUT: [(u8, u8); 7] = [
    (1, 0x19),
    (2, 0x18),
    (2, 0x19),
    (32, 0x10),
    (1, 0x18),
    (1, 0x1A),
    (254, 0x00),
];

pub fn edges(stage: &mut Stage) {
    stage.some_mode(6);
    for _ in 0..6 {
        let (datl, add) = stage.next_of("reads", &EDGES);
        stage.read(datl, add);
    }
}

/// With something to show: bits from a bad line and from a request out of order.
pub fn statut(stage: &mut Stage) {
    stage.some_mode(6);
    for port in [1, 2] {
        if stage.random.one_in(2) {
            stage.say(&[0x01, 0x02]);
        }
        if stage.random.one_in(2) {
            let ahead = stage.agent().taken + 4;
            let address = stage.address();
            let head = stage.head_at(ahead);
            stage.say(&super::super::speech::read(address, head, 1, 0x19).body());
        }
        let (datl, add) = stage.next_of("reads over STATUT", &OVER_STATUT);
        let body = stage.due_read(datl, add).body();
        stage.say_on(port, &body);
        let again = stage.due_read(1, 0x19).body();
        stage.say_on(port, &again);
    }
}
