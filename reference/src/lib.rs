//! An independent second program for the SNTP client, a gateway's associations, the server,
//! broadcast, extension fields, the calendar, Unix times, the Time Protocol, the precision octet,
//! the ledger, the calls as C firmware makes them and both line formats, so that its answers can be compared octet for octet with another program's. It is
//! written from docs/RULES.md and docs/CONFORMANCE.md alone.

#![cfg_attr(not(test), deny(clippy::unwrap_used, clippy::expect_used, clippy::panic))]

pub mod arrival;
pub mod associations;
pub mod benchmarks;
pub mod broadcast;
pub mod calendar;
pub mod client;
pub mod conformance;
pub mod count;
pub mod direct_calendar;
pub mod direct_measure;
pub mod extension;
pub mod firmware;
pub mod generate;
pub mod hex_lines;
pub mod image;
pub mod kiss;
pub mod ledger;
pub mod octets;
pub mod packet;
pub mod precision;
pub mod random;
pub mod refusal;
pub mod replay;
pub mod server;
pub mod time_protocol;
pub mod timestamp;
pub mod unix;
