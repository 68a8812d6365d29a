//! The compiled library: its declarations with safe wrappers, the same functions by the second implementation, and calls that
//! two implementations answer.

#[cfg(test)]
mod c_hosts;
#[cfg(test)]
mod declarations;
pub mod functions;
pub mod host_calls;
pub mod model;
pub mod slotplan_lib;
