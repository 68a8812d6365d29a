//! The second implementation of document 01 and of U1, U2 and U3 of document 02. Nothing outside this folder is part of it.

pub mod bytes;
pub mod calls;
#[cfg(test)]
pub mod former;
pub mod rules;
pub mod schedules;
pub mod slots;
pub mod typed;
pub mod words;
