//! What each program under crates/ prints for an input, by the second implementation, and the built programs run.

pub mod call_lines;
pub mod chart;
pub mod lines;
pub mod names;
pub mod output;
pub mod rehearse_lines;
pub mod running;
pub mod schedule_lines;
