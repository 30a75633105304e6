//! Tries lists of moves on an entry that makes moves, and compares its answers and every byte of
//! its buffers with the second planner's run on state tables and with its reference machine
//! (document 01, "The run").
//!
//! | file | holds |
//! |---|---|
//! | `entry.rs` | what is tried: an entry that plans and one that makes a move, as exported |
//! | `buffers.rs` | the five buffers of a move, with guards around them |
//! | `nests.rs` | loop nests and the 63 numbers that they are lent as |
//! | `requests.rs` | moves, strange places included |
//! | `starts.rs` | what tables and state hold before the first move |
//! | `paces.rs` | in which order the moves of a complete run are asked |
//! | `judge.rs` | what a move must answer and leave, by the second planner |
//! | `lists.rs` | one list of moves from start to end, compared after each move |
//! | `suite.rs` | all lists of a seed, and their counts |

pub mod buffers;
pub mod entry;
pub mod judge;
pub mod lists;
pub mod nests;
pub mod paces;
pub mod requests;
#[cfg(test)]
mod rules;
#[cfg(test)]
mod self_test;
pub mod starts;
pub mod suite;
