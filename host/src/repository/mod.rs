//! Tests of the repository: its samples, its guide for planners, the scripts that build, the built programs, its gate, what its pages count, and its statements.

pub mod built;
mod gate;
mod guide;
mod habits;
pub mod places;
mod samples;
mod scripts;
mod statements;
mod trust;
