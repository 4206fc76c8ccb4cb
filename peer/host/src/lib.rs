//! The static library beside the second implementation, both behind the same calls.

pub mod library;
pub mod second;
pub mod state;
