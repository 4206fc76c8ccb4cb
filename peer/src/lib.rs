//! The parts of the second implementation, for its own program and for the programs in `host/`.

pub mod beside;
pub mod body;
pub mod cases;
pub mod census;
pub mod check;
pub mod crc;
pub mod fields;
pub mod flips;
pub mod frame;
pub mod fuzz;
pub mod generate;
pub mod hex;
pub mod incident;
pub mod journey;
pub mod load;
pub mod million;
pub mod module;
pub mod refusal;
pub mod script;
pub mod spelling;
pub mod strike;
pub mod stuffing;
pub mod tape;
pub mod vectors;
pub mod which;
pub mod worst;
