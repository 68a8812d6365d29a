//! The commands of this program: comparisons of the programs and of the library with the second implementation, the watch over
//! demand 3, contracts weakened on purpose, and times.

pub mod bad_hosts;
pub mod bench;
pub mod compare;
pub mod compare_library;
pub mod compare_typed;
pub mod expected;
pub mod outcomes;
pub mod rehearsal;
pub mod shrink;
pub mod statements;
pub mod watch;
pub mod weakened;
