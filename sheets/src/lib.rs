//! A seeded generator of texts, whole and damaged, to compare two planners on: the same seed and
//! index always give the same text. And how a text is given to a program, and its listing taken.
//!
//! | file | holds |
//! |---|---|
//! | `random.rs` | numbers from a seed |
//! | `accepted.rs` | nests that are accepted |
//! | `boundary.rs` | their boundary values, and the two forms in which a text has them |
//! | `vectors.rs` | those of them that have most vectors chosen, and wide directions |
//! | `gaps.rs` | those of them whose times leave out whole numbers |
//! | `refused.rs` | nests with one refusal |
//! | `twice.rs` | nests with two refusals or more |
//! | `damaged.rs` | texts that are damaged |
//! | `last_line.rs` | those of them whose last line has neither form |
//! | `receivers.rs` | how many other blocks a block sends to, and nests where they are the most |
//! | `wrong.rs` | wrong ways to choose vectors and to deal bits, which a comparison has to find |
//! | `deeper.rs` | nests with one loop more that changes no plan |
//! | `feeding.rs` | how a text is given to a program and its listing taken |
//! | `bin/compare.rs` | the comparison of a planning program with the second planner |

pub mod accepted;
pub mod boundary;
pub mod damaged;
pub mod deeper;
pub mod feeding;
pub mod gaps;
pub mod last_line;
pub mod random;
pub mod receivers;
pub mod refused;
pub mod twice;
pub mod vectors;
pub mod wrong;

pub use accepted::accepted_nest;
pub use random::Random;
pub use refused::{refused_nest, twice_refused_nest};

use accepted::accepted_case;
use damaged::damaged_case;
use refused::refused_case;
use twice::twice_refused_case;

/// A text to compare on, and in words what it was made for.
pub struct Case {
    /// One of `ACCEPTED`, `REFUSED`, `TWICE_REFUSED`, `DAMAGED`.
    pub family: &'static str,
    pub kind: String,
    pub text: Vec<u8>,
}

pub const ACCEPTED: &str = "nest that is accepted";
pub const REFUSED: &str = "nest with one refusal";
pub const TWICE_REFUSED: &str = "nest with two refusals or more";
pub const DAMAGED: &str = "damaged text";

/// Of each 22 cases 10 are accepted nests, 2 have one refusal, 5 several, and 5 are damaged texts.
const ROUND: u64 = 22;
const ACCEPTED_IN_ROUND: u64 = 10;
const REFUSED_IN_ROUND: u64 = 2;
const TWICE_REFUSED_IN_ROUND: u64 = 5;
const DAMAGED_IN_ROUND: u64 = 5;

/// The case with the given index among those of a seed.
pub fn case(seed: u64, index: u64) -> Case {
    let mut random = Random::new(Random::new(seed).bits() ^ Random::new(!index).bits());
    let round = index / ROUND;
    let mut place = index % ROUND;
    if place < ACCEPTED_IN_ROUND {
        return accepted_case(&mut random, round * ACCEPTED_IN_ROUND + place);
    }
    place -= ACCEPTED_IN_ROUND;
    if place < REFUSED_IN_ROUND {
        return refused_case(&mut random, round * REFUSED_IN_ROUND + place);
    }
    place -= REFUSED_IN_ROUND;
    if place < TWICE_REFUSED_IN_ROUND {
        return twice_refused_case(&mut random, round * TWICE_REFUSED_IN_ROUND + place);
    }
    place -= TWICE_REFUSED_IN_ROUND;
    damaged_case(&mut random, round * DAMAGED_IN_ROUND + place)
}

/// The element of a list at a running number, going round the list.
pub(crate) fn in_turn<T: Copy>(list: &[T], number: u64) -> T {
    list[(number % list.len() as u64) as usize]
}
