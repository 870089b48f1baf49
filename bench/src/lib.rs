//! A handler of one channel in plain Rust, without proofs and with none of the proved code in it. It says how fast such a handler can be, and is a second opinion on its results.

pub mod books;
pub mod channel;
pub mod digest;
pub mod early;
pub mod pcap;
pub mod reader;
pub mod tally;
