//! The exchange of demand 3 on many seeds, of a client and of a record of a list, between clocks
//! that are exact and clocks that tick. Calls in between change nothing. The reply is accepted, or
//! refused by 18 for the ticks alone, and the offset keeps its bound.

mod bound;
mod calls;
mod client;
mod lists;
mod ticks;
mod worked;
