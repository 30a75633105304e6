//! What is tried: an entry that plans and one that makes a move, in the form in which they are
//! exported.

use second::machine::Move;

/// How many numbers a loop nest is lent as.
pub const NUMBERS: usize = 63;

/// A loop nest as the exported functions read it: depth, number of dependences, cube dimension,
/// lower and upper limits, time vector, dependences, boundary values, weights, in this order.
pub type Numbers = [i64; NUMBERS];

/// The kinds of a move, numbered as in document 02's log.
pub const COMPUTE: usize = 1;
pub const DELIVER: usize = 2;

/// A move as the exported function takes it: a compute on processor `first`, or a delivery for rank
/// `first` along dependence number `second`. Any other kind is no move's.
#[derive(Clone, Copy, Debug, PartialEq, Eq)]
pub struct Request {
    pub kind: usize,
    pub first: usize,
    pub second: usize,
}

impl Request {
    pub fn compute(processor: usize) -> Request {
        Request { kind: COMPUTE, first: processor, second: 0 }
    }

    pub fn deliver(rank: usize, dependence: usize) -> Request {
        Request { kind: DELIVER, first: rank, second: dependence }
    }

    /// The move in the second planner's terms. A kind that is no move's is owed the answer of a
    /// place that is not there.
    pub fn as_move(self) -> Move {
        match self.kind {
            COMPUTE => Move::Compute { processor: self.first },
            DELIVER => Move::Deliver { rank: self.first, dependence: self.second },
            _ => Move::Compute { processor: usize::MAX },
        }
    }
}

/// The answer of a move: its number, and the rank and value of the iteration computed, or the rank
/// and dependence number of the message delivered; zeros where refused.
#[derive(Clone, Copy, Debug, PartialEq, Eq)]
pub struct Answer {
    pub number: u8,
    pub made: [usize; 2],
}

impl Answer {
    pub fn refused(number: u8) -> Answer {
        Answer { number, made: [0, 0] }
    }
}

/// The buffers that are lent for one move.
pub struct Lent<'a> {
    pub steps: &'a [u32],
    pub processors: &'a [u8],
    pub values: &'a mut [u16],
    pub done: &'a mut [u8],
    pub delivered: &'a mut [u8],
}

/// The tables of a plan, and its counts: iterations, steps, blocks, processors that hold an
/// iteration, messages.
pub struct Planned<'a> {
    pub steps: &'a mut [u32],
    pub blocks: &'a mut [u16],
    pub processors: &'a mut [u8],
    pub values: &'a mut [u16],
    pub counts: &'a mut [usize; 5],
}

/// The entries that are tried.
pub trait Entry {
    /// Plans a nest; answers 0 or a refusal.
    fn plan(&self, nest: &Numbers, tables: Planned) -> u8;

    /// Makes one move.
    fn make_move(&self, nest: &Numbers, request: Request, lent: Lent) -> Answer;
}
