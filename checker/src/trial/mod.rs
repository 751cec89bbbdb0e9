//! What an implementation of the documents is tried with: scenarios, random streams and single calls,
//! demand 3's balances, and counters of what was seen.

pub mod balances;
pub mod busy;
pub mod calendar;
pub mod calls;
pub mod climbs;
pub mod commands;
pub mod coverage;
pub mod dated;
pub mod days;
pub mod differential;
pub mod forms;
pub mod implementation;
pub mod linking;
pub mod literal;
pub mod opposite;
pub mod pairing;
pub mod random;
pub mod refused;
pub mod scenario;
pub mod segregated;
pub mod streams;
pub mod taking_back;
pub mod vectors;
