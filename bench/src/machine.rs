//! The run move by move, as one would write it in plain Rust for speed: the nest is checked once,
//! and each move searches the tables as document 01 says.

use crate::nest::{Answer, Move, Nest, State, Tables};
use crate::plain::{check, dot, Loops, Vector};

/// A nest that passed its checks, with N loops.
pub struct Machine<const N: usize> {
    iterations: usize,
    processors: usize,
    loops: Loops<N>,
    boundaries: [u32; 8],
    weights: [u32; 8],
}

fn refused(number: u8) -> Answer {
    Answer { number, made: [0; 2] }
}

impl<const N: usize> Machine<N> {
    /// The machine of an accepted nest, or the number of its refusal.
    pub fn new(nest: &Nest) -> Result<Machine<N>, u8> {
        let iterations = check(nest)?;
        Ok(Machine {
            iterations,
            processors: 1 << nest.cube,
            loops: Loops::new(nest),
            boundaries: nest.boundaries.map(|value| value as u32),
            weights: nest.weights.map(|weight| weight as u32),
        })
    }

    /// Makes one move.
    pub fn make_move(&self, request: Move, tables: &Tables, state: &mut State) -> Answer {
        let n = self.iterations;
        let lengths = [
            tables.steps.len(),
            tables.processors.len(),
            state.values.len(),
            state.done.len(),
            state.delivered.len(),
        ];
        if lengths.iter().any(|length| *length < n) {
            return refused(14);
        }
        match request {
            Move::Compute(processor) => self.compute(processor, tables, state),
            Move::Deliver(rank, dependence) => self.deliver(rank, dependence, tables, state),
        }
    }

    fn compute(&self, processor: usize, tables: &Tables, state: &mut State) -> Answer {
        if processor >= self.processors {
            return refused(18);
        }
        let Some(rank) = self.next(processor as u8, tables, state) else { return refused(17) };
        let j = self.loops.point(rank);
        let mut sum = rank as u32;
        for (k, d) in self.loops.dependences.iter().enumerate() {
            let value = match self.source(rank, j, *d) {
                None => self.boundaries[k],
                Some(source) => {
                    let here = tables.processors[source] as usize == processor;
                    let there = if here {
                        state.done[source] != 0
                    } else {
                        state.delivered[rank] >> k & 1 == 1
                    };
                    if !there {
                        return refused(15);
                    }
                    state.values[source] as u32
                }
            };
            sum += self.weights[k] * value;
        }
        state.values[rank] = sum as u16;
        state.done[rank] = 1;
        Answer { number: 0, made: [rank, sum as u16 as usize] }
    }

    /// The processor's iteration that is not done, least in step, then in rank.
    fn next(&self, processor: u8, tables: &Tables, state: &State) -> Option<usize> {
        let n = self.iterations;
        let (steps, processors, done) =
            (&tables.steps[..n], &tables.processors[..n], &state.done[..n]);
        let mut least: Option<(u32, usize)> = None;
        for rank in 0..n {
            if processors[rank] == processor
                && done[rank] == 0
                && least.is_none_or(|(step, _)| steps[rank] < step)
            {
                least = Some((steps[rank], rank));
            }
        }
        least.map(|(_, rank)| rank)
    }

    fn deliver(
        &self,
        rank: usize,
        dependence: usize,
        tables: &Tables,
        state: &mut State,
    ) -> Answer {
        if rank >= self.iterations || dependence >= self.loops.dependences.len() {
            return refused(18);
        }
        let d = self.loops.dependences[dependence];
        let Some(source) = self.source(rank, self.loops.point(rank), d) else { return refused(16) };
        let is_message = tables.processors[source] != tables.processors[rank];
        if !is_message || state.done[source] == 0 || state.delivered[rank] >> dependence & 1 == 1 {
            return refused(16);
        }
        state.delivered[rank] |= 1 << dependence;
        Answer { number: 0, made: [rank, dependence] }
    }

    /// The rank of an iteration's source along a dependence, if it is an iteration.
    pub fn source(&self, rank: usize, j: Vector<N>, d: Vector<N>) -> Option<usize> {
        self.loops.source(rank, j, d, dot(d, self.loops.stride))
    }

    /// The messages that an iteration's value goes into.
    pub fn messages_from(&self, source: usize, tables: &Tables) -> Vec<Move> {
        let j = self.loops.point(source);
        let mut messages = Vec::new();
        for (k, d) in self.loops.dependences.iter().enumerate() {
            let back = d.map(|component| -component);
            if let Some(rank) = self.source(source, j, back) {
                if tables.processors[rank] != tables.processors[source] {
                    messages.push(Move::Deliver(rank, k));
                }
            }
        }
        messages
    }
}
