//! The verified loop planner for callers in Rust: safe functions over the static library that
//! `tools/archive` proves and writes.
//!
//! Every function takes any numbers, any texts and slices of any length, and answers what was asked
//! for or one [`Refusal`]. A refused call changes nothing that is lent. Nothing here panics,
//! allocates or copies a table.
//!
//! ```
//! let text = b"     1     1     0\n     0     3\n     1\n     1\n     5     2\n";
//! let nest = rowlock::read(text)?;
//! let mut values = [0; 4];
//! rowlock::fill(&nest, &mut values)?;
//! assert_eq!(values, [10, 21, 44, 91]);
//! assert_eq!(rowlock::row(&nest, &values, 2)?, [44]);
//! assert_eq!(rowlock::row(&nest, &values, 4), Err(rowlock::Refusal::NO_SUCH_ROW));
//! # Ok::<(), rowlock::Refusal>(())
//! ```
//!
//! | file | holds |
//! |---|---|
//! | `nest.rs` | a loop nest as numbers |
//! | `refusal.rs` | the refusals |
//! | `entries.rs` | the entries, with results |
//! | `exported.rs` | the exported functions as they are, made safe: all that is `unsafe` stands there |

#![deny(unsafe_code)]

mod entries;
pub mod exported;
mod nest;
mod refusal;

pub use entries::{
    check, fill, inspect, list, locate, make_move, most_receivers, plan, read, row, write, Counts,
    Made, Move,
};
pub use nest::Nest;
pub use refusal::Refusal;

/// The most iterations that an accepted nest has: as many entries are enough for every table.
pub const MAX_ITERATIONS: usize = 4096;

/// The bytes of the longest text of a nest: enough for every [`write`].
pub const MAX_TEXT: usize = 393;

/// The bytes of the longest listing: enough for every [`list`].
pub const MAX_LISTING: usize = 31 * (MAX_ITERATIONS + 1);
