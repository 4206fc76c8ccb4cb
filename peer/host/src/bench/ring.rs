//! How many frames a second the ring itself can bring: 12 Mbit/s on each of two ports.

const BITS_A_SECOND: f64 = 12e6;
const PORTS: f64 = 2.0;

/// For bodies of that mean length, each with its two flags, without a gap.
pub fn frames_a_second(body: f64) -> f64 {
    PORTS * BITS_A_SECOND / (8.0 * (body + 2.0))
}
