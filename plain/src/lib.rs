//! SNTP packets, the client's calls and the server's reply, in plain Rust.

#![deny(unsafe_code)]

pub mod arrival;
pub mod c_calls;
pub mod c_entry;
pub mod client;
pub mod extension;
pub mod kiss;
pub mod packet;
pub mod refusal;
pub mod server;
pub mod server_block;
pub mod timestamp;
