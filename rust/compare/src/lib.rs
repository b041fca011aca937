//! Compares the proved card, the proved switch, the proved player and recorder
//! of logs and what reads lengths and packets, through the C interface, with the
//! second model.
//!
//! Both are given the same calls with the same bytes, and after every call the
//! refusal, answer, value and count, the bytes taken, the lengths or fields read
//! and every byte of card, table, pending array, switch, player and output are
//! compared. There are
//! directed trials, for the edges of each rule, and random ones.

pub mod call;
pub mod directed;
pub mod generate;
pub mod given;
pub mod layout;
pub mod packets;
pub mod pair;
pub mod print;
pub mod proved;
pub mod random;
pub mod recorded;
pub mod run;
pub mod second;
pub mod shrink;
pub mod statistics;
pub mod wide;
pub mod world;
