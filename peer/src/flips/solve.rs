//! Equations over GF(2): where a function of single bits, each of which changes its value in one
//! way whatever the others are, becomes 0.

/// So many low bits are unknown; the others stay as in `start`. Each bit's change is reduced by
/// the ones before it, and then so is the value at `start`. `None` if the value is never 0.
pub fn root(width: u32, start: u64, value: impl Fn(u64) -> u32) -> Option<u64> {
    let wanted = value(start);
    let mut changes: Vec<(u32, u64)> = Vec::new();
    for bit in 0..width {
        let bit = 1 << bit;
        let change = reduced(&changes, (value(start ^ bit) ^ wanted, bit));
        if change.0 != 0 {
            changes.push(change);
        }
    }
    let (left, point) = reduced(&changes, (wanted, start));
    (left == 0).then_some(point)
}

/// No change has the leading bit of one before it, so going through them once is enough.
fn reduced(changes: &[(u32, u64)], item: (u32, u64)) -> (u32, u64) {
    changes.iter().fold(item, |(left, bits), &(change, by)| {
        match left & 1 << change.ilog2() {
            0 => (left, bits),
            _ => (left ^ change, bits ^ by),
        }
    })
}
