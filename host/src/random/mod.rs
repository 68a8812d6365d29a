//! Random inputs of the programs and of the library, made from a seed.

pub mod calls;
pub mod damage;
pub mod gaps;
pub mod generator;
pub mod hosts;
pub mod plans;
pub mod runs;
pub mod schedules;
pub mod sites;
pub mod typed;
