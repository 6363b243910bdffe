//! The second replay, written from the rules in words and apart from the proved sources: plain Rust, no dependency.

pub mod account;
pub mod cells;
pub mod law;
pub mod register;
#[cfg(test)]
mod worked;
