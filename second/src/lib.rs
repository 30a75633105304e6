//! A second planner for loop nests with constant dependences: the blocks of Sheu and Tai
//! (source document 000) and their processors on a hypercube, with the free choices as document 01
//! fixes them, boundary values as document 02, U1, has them, and steps as U2 has them.
//!
//! Its only purpose is to be compared, byte for byte, with the proved planner, with which it shares
//! no code and no language. So it follows the documents sentence by sentence, computes with exact
//! rational numbers, and prefers the simplest algorithm to the fastest one.
//!
//! Some of document 01's titles use words that this code does not: "The sheet" is about the loop
//! nest, "clock span" about the time vector, "offset span" about dependences, "weight span" about
//! boundary values and weights, "Card" about processors, "Card message" about messages, "Words from
//! the rack" about the numbers that calls answer.

pub mod linear;
pub mod listing;
pub mod machine;
pub mod mapping;
pub mod nest;
pub mod partition;
pub mod plan;
pub mod rational;
pub mod receivers;
pub mod refusal;
pub mod sequential;
pub mod text;
pub mod worked;
