//! Incidents for the which program: named scripts about its edges, each with its answer worked out by hand, and the two
//! that take long.

mod copies;
mod edge;
mod fallbacks;
mod forms;
mod hand;
mod heavy;
mod names;
mod passages;
mod places;
mod requests;
mod sizes;
mod syncs;

pub use edge::{edge, edges, Edge};
pub use hand::Hand;
pub use heavy::{heavy, Heavy, HEAVIES};
