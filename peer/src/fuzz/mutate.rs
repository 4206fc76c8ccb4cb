//! A script with lines lost, doubled, moved and changed, as a line would lose and delay frames.

use crate::generate::random::Random;
use crate::hex;

pub fn some(random: &mut Random, lines: &mut Vec<Vec<u8>>) {
    for _ in 0..1 + lines.len() / 12 {
        let place = random.below(lines.len());
        match random.below(7) {
            0 if lines.len() > 1 => drop(lines.remove(place)),
            1 => {
                let copy = on_other_port(&lines[place]);
                lines.insert(place + 1, copy);
            }
            2 => {
                let copy = lines[place].clone();
                let later = (place + random.below(30)).min(lines.len());
                lines.insert(later, copy);
            }
            3 => {
                let later = (place + random.below(10)).min(lines.len() - 1);
                lines.swap(place, later);
            }
            4 => change(random, &mut lines[place]),
            5 => lines.insert(place, inputs(random)),
            _ => lines.insert(place, format!("T {}", 1 + random.below(300)).into_bytes()),
        }
    }
}

fn inputs(random: &mut Random) -> Vec<u8> {
    let inputs = [random.byte(); 64];
    format!("I {}", hex::encode(&inputs)).into_bytes()
}

pub(crate) fn on_other_port(line: &[u8]) -> Vec<u8> {
    let mut line = line.to_vec();
    match line.first_mut() {
        Some(port @ b'1') => *port = b'2',
        Some(port @ b'2') => *port = b'1',
        _ => {}
    }
    line
}

/// One character becomes a hex digit, or any byte but LF.
fn change(random: &mut Random, line: &mut [u8]) {
    if line.is_empty() {
        return;
    }
    let place = random.below(line.len());
    let any = random.byte();
    line[place] = match random.below(4) {
        0 if any != b'\n' => any,
        _ => random.pick(b"0123456789ABCDEFabcdef"),
    };
}
