//! The run of the machine, move by move (document 01, "The run"): once on state tables, and once as
//! the reference machine, which knows the nest and the moves only. A source outside the nest reads
//! as in the sequential loop.

use std::collections::HashSet;

use crate::nest::{Iterations, LoopNest};
use crate::plan::Plan;
use crate::refusal::*;
use crate::sequential::{source_values, Rule};

/// A move: a processor computes its next iteration, or the message for an iteration (by rank) along
/// a dependence (by number) is delivered.
#[derive(Clone, Copy, Debug, PartialEq, Eq)]
pub enum Move {
    Compute { processor: usize },
    Deliver { rank: usize, dependence: usize },
}

/// The tables of a plan that a move reads.
#[derive(Clone, Debug, PartialEq, Eq)]
pub struct Tables {
    pub steps: Vec<i64>,
    pub processors: Vec<usize>,
}

impl Tables {
    /// The tables that the planner makes.
    pub fn of_plan(plan: &Plan) -> Tables {
        Tables { steps: plan.partition.steps.clone(), processors: plan.mapping.processors.clone() }
    }
}

/// The state of a run, one entry per iteration in each table. `done` is 0 until the iteration is
/// computed; `delivered` has a bit for each dependence, the first dependence's being the lowest.
#[derive(Clone, Debug, PartialEq, Eq)]
pub struct State {
    pub values: Vec<i64>,
    pub done: Vec<u8>,
    pub delivered: Vec<u8>,
}

impl State {
    /// The state before the first move: nothing done, nothing delivered, the values as given.
    pub fn fresh(values: Vec<i64>) -> State {
        let count = values.len();
        State { values, done: vec![0; count], delivered: vec![0; count] }
    }

    /// Whether an iteration is done. Any byte but 0 says so.
    fn is_done(&self, rank: usize) -> bool {
        self.done[rank] != 0
    }

    /// Whether the message for an iteration along a dependence is delivered, by its bit.
    fn is_delivered(&self, rank: usize, dependence: usize) -> bool {
        self.delivered[rank] & (1 << dependence) != 0
    }
}

/// The run on state tables, under any rule; `weighted_sum` is the rule that document 01 builds.
pub struct Machine<'a, R: Rule> {
    nest: &'a LoopNest,
    iterations: Iterations,
    rule: R,
}

impl<'a, R: Rule> Machine<'a, R> {
    /// A machine for a nest, or the nest's refusal (2 to 13).
    pub fn new(nest: &'a LoopNest, rule: R) -> Result<Machine<'a, R>, Number> {
        match nest.refusal() {
            Some(number) => Err(number),
            None => Ok(Machine { nest, iterations: Iterations::new(nest), rule }),
        }
    }

    /// Makes one move on the given tables and state and answers its number, whatever the tables and
    /// the state hold. Short buffers (14) are refused first, then places that do not exist (18),
    /// then what the move itself runs into (17, 15 or 16).
    pub fn execute(&self, tables: &Tables, state: &mut State, request: Move) -> Number {
        if self.has_short_buffer(tables, state) {
            return SHORT_BUFFER;
        }
        match request {
            Move::Compute { processor } => self.compute(tables, state, processor),
            Move::Deliver { rank, dependence } => self.deliver(tables, state, rank, dependence),
        }
    }

    /// Whether any table is too short to have an entry for every iteration.
    fn has_short_buffer(&self, tables: &Tables, state: &State) -> bool {
        let lengths = [
            tables.steps.len(),
            tables.processors.len(),
            state.values.len(),
            state.done.len(),
            state.delivered.len(),
        ];
        lengths.iter().any(|&length| length < self.iterations.count())
    }

    /// Computes the processor's earliest iteration that is not done, the smaller rank first within
    /// a step, provided that nothing it reads is outstanding.
    fn compute(&self, tables: &Tables, state: &mut State, processor: usize) -> Number {
        if processor >= self.nest.processor_count() {
            return NO_SUCH_PLACE;
        }
        let not_done = (0..self.iterations.count())
            .filter(|&rank| tables.processors[rank] == processor && !state.is_done(rank));
        let Some(rank) = not_done.min_by_key(|&rank| (tables.steps[rank], rank)) else {
            return IDLE_PROCESSOR;
        };
        let all_there = (0..self.nest.dependences.len())
            .all(|dependence| self.is_there(tables, state, rank, dependence, processor));
        if !all_there {
            return WAITING;
        }
        let sources = source_values(self.nest, &self.iterations, rank, &state.values);
        state.values[rank] = (self.rule)(&self.iterations.points[rank], rank, &sources);
        state.done[rank] = 1;
        DONE
    }

    /// Whether an iteration's source along a dependence can be read on the processor. One outside
    /// the nest always can; one on the same processor must be done, and one elsewhere needs its
    /// message.
    fn is_there(
        &self,
        tables: &Tables,
        state: &State,
        rank: usize,
        dependence: usize,
        processor: usize,
    ) -> bool {
        match self.iterations.source(rank, &self.nest.dependences[dependence]) {
            None => true,
            Some(source) if tables.processors[source] == processor => state.is_done(source),
            Some(_) => state.is_delivered(rank, dependence),
        }
    }

    /// Delivers a message once, and not before its source is done: marks it in the receiving
    /// iteration's byte.
    fn deliver(
        &self,
        tables: &Tables,
        state: &mut State,
        rank: usize,
        dependence: usize,
    ) -> Number {
        if rank >= self.iterations.count() || dependence >= self.nest.dependences.len() {
            return NO_SUCH_PLACE;
        }
        let Some(source) = self.iterations.source(rank, &self.nest.dependences[dependence]) else {
            return OUT_OF_TURN;
        };
        let is_message = tables.processors[source] != tables.processors[rank];
        if !is_message || !state.is_done(source) || state.is_delivered(rank, dependence) {
            return OUT_OF_TURN;
        }
        state.delivered[rank] |= 1 << dependence;
        DONE
    }
}

/// The reference machine (document 01, "The run"): it makes its own plan of the nest and keeps two
/// sets, the iterations computed so far and the messages delivered so far.
pub struct ReferenceMachine<'a> {
    nest: &'a LoopNest,
    plan: Plan,
    messages: HashSet<(usize, usize)>,
    pub computed: HashSet<usize>,
    pub delivered: HashSet<(usize, usize)>,
}

impl<'a> ReferenceMachine<'a> {
    /// The reference machine of an accepted nest.
    pub fn new(nest: &'a LoopNest) -> ReferenceMachine<'a> {
        let plan = Plan::new(nest);
        let messages = plan.mapping.messages.iter().copied().collect();
        ReferenceMachine {
            nest,
            plan,
            messages,
            computed: HashSet::new(),
            delivered: HashSet::new(),
        }
    }

    /// Makes one move and answers its number: 0 for an allowed move. A refused move leaves both
    /// sets as they were.
    pub fn execute(&mut self, request: Move) -> Number {
        match request {
            Move::Compute { processor } => self.compute(processor),
            Move::Deliver { rank, dependence } => self.deliver(rank, dependence),
        }
    }

    /// Computes the first missing iteration of a processor, by step and then by rank. Refused if
    /// there is no such processor (18), it has nothing missing (17), or the iteration waits (15).
    fn compute(&mut self, processor: usize) -> Number {
        if processor >= self.nest.processor_count() {
            return NO_SUCH_PLACE;
        }
        let mut missing: Vec<(i64, usize)> = (0..self.plan.iterations.count())
            .filter(|&rank| self.plan.mapping.processors[rank] == processor)
            .filter(|rank| !self.computed.contains(rank))
            .map(|rank| (self.plan.partition.steps[rank], rank))
            .collect();
        missing.sort();
        let Some(&(_, rank)) = missing.first() else {
            return IDLE_PROCESSOR;
        };
        let waits = (0..self.nest.dependences.len()).any(|number| self.waits_for(rank, number));
        if waits {
            return WAITING;
        }
        self.computed.insert(rank);
        DONE
    }

    /// Whether an iteration waits along a dependence: for a message from another processor, or for
    /// a source that its own processor has yet to compute.
    fn waits_for(&self, rank: usize, dependence: usize) -> bool {
        let Some(source) = self.source(rank, dependence) else {
            return false;
        };
        if self.messages.contains(&(rank, dependence)) {
            !self.delivered.contains(&(rank, dependence))
        } else {
            !self.computed.contains(&source)
        }
    }

    fn source(&self, rank: usize, dependence: usize) -> Option<usize> {
        self.plan.iterations.source(rank, &self.nest.dependences[dependence])
    }

    /// Delivers a message. Refused if the iteration or the dependence does not exist (18), and if
    /// the two make no message, or one that is not ready or was delivered before (16).
    fn deliver(&mut self, rank: usize, dependence: usize) -> Number {
        if rank >= self.plan.iterations.count() || dependence >= self.nest.dependences.len() {
            return NO_SUCH_PLACE;
        }
        let message = (rank, dependence);
        let source_computed =
            self.source(rank, dependence).is_some_and(|source| self.computed.contains(&source));
        let is_message = self.messages.contains(&message);
        if !is_message || !source_computed || self.delivered.contains(&message) {
            return OUT_OF_TURN;
        }
        self.delivered.insert(message);
        DONE
    }
}

#[cfg(test)]
mod tests {
    use super::*;
    use crate::sequential::weighted_sum;
    use crate::text;

    const P2: &str =
        "     2     2     1\n     0     1\n     0     2\n     1     1\n     0     1\n     \
                      1     0\n     1     2     3\n";

    fn compute(processor: usize) -> Move {
        Move::Compute { processor }
    }

    fn deliver(rank: usize, dependence: usize) -> Move {
        Move::Deliver { rank, dependence }
    }

    #[test]
    fn answers_of_a_run_by_hand() {
        let nest = text::read(P2.as_bytes()).unwrap();
        let tables = Tables::of_plan(&Plan::new(&nest));
        let machine = Machine::new(&nest, weighted_sum(&nest)).ok().unwrap();
        let mut reference = ReferenceMachine::new(&nest);
        let mut state = State::fresh(vec![0; 6]);
        let moves_and_answers = [
            (compute(1), WAITING),
            (deliver(2, 0), OUT_OF_TURN),
            (compute(0), DONE),
            (compute(0), DONE),
            (deliver(2, 0), DONE),
            (deliver(2, 0), OUT_OF_TURN),
            (compute(1), DONE),
            (compute(1), IDLE_PROCESSOR),
            (compute(2), NO_SUCH_PLACE),
            (deliver(6, 0), NO_SUCH_PLACE),
            (deliver(0, 2), NO_SUCH_PLACE),
            (deliver(0, 0), OUT_OF_TURN),
            (deliver(1, 0), OUT_OF_TURN),
            (compute(0), DONE),
            (compute(0), DONE),
            (compute(0), WAITING),
            (deliver(5, 1), DONE),
            (compute(0), DONE),
            (compute(0), IDLE_PROCESSOR),
        ];
        for (request, answer) in moves_and_answers {
            assert_eq!(machine.execute(&tables, &mut state, request), answer);
            assert_eq!(reference.execute(request), answer);
        }
        assert_eq!(state.values, vec![5, 14, 33, 20, 86, 276]);
        assert_eq!(state.done, vec![1; 6]);
        assert_eq!(state.delivered, vec![0, 0, 1, 0, 0, 2]);
    }

    /// The same nest with the boundary values 1 and 10, run row by row; the value of each iteration
    /// is worked out in tests/examples.rs.
    #[test]
    fn a_run_with_a_boundary_value_for_each_dependence() {
        let text = P2.replace("     1     2     3\n", "     1    10     2     3\n");
        let nest = text::read(text.as_bytes()).unwrap();
        let tables = Tables::of_plan(&Plan::new(&nest));
        let machine = Machine::new(&nest, weighted_sum(&nest)).ok().unwrap();
        let mut state = State::fresh(vec![0; 6]);
        let moves = [
            compute(0),
            compute(0),
            deliver(2, 0),
            compute(1),
            compute(0),
            compute(0),
            deliver(5, 1),
            compute(0),
        ];
        for request in moves {
            assert_eq!(machine.execute(&tables, &mut state, request), DONE);
        }
        assert_eq!(state.values, vec![32, 95, 222, 101, 491, 1653]);
    }

    #[test]
    fn answers_on_other_tables_and_states() {
        let nest = text::read(P2.as_bytes()).unwrap();
        let machine = Machine::new(&nest, weighted_sum(&nest)).ok().unwrap();
        let tables = Tables { steps: vec![9, 8, 7, 7, 5, 5], processors: vec![1, 1, 0, 0, 7, 1] };
        let mut state = State {
            values: vec![1; 7],
            done: vec![0, 2, 0, 255, 1, 1, 0],
            delivered: vec![255; 7],
        };
        assert_eq!(machine.execute(&tables, &mut state, deliver(2, 0)), OUT_OF_TURN);
        assert_eq!(machine.execute(&tables, &mut state, compute(0)), DONE);
        assert_eq!(state.values, vec![1, 1, 2 + 2 + 3, 1, 1, 1, 1]);
        assert_eq!(machine.execute(&tables, &mut state, compute(0)), IDLE_PROCESSOR);
        assert_eq!(machine.execute(&tables, &mut state, compute(7)), NO_SUCH_PLACE);
        state.delivered[2] = 254;
        assert_eq!(machine.execute(&tables, &mut state, deliver(2, 0)), DONE);
        assert_eq!(state.delivered, vec![255; 7]);
    }

    #[test]
    fn a_short_buffer_is_refused_before_the_place() {
        let nest = text::read(P2.as_bytes()).unwrap();
        let machine = Machine::new(&nest, weighted_sum(&nest)).ok().unwrap();
        let mut tables = Tables::of_plan(&Plan::new(&nest));
        let mut state = State::fresh(vec![0; 6]);
        state.delivered.pop();
        assert_eq!(machine.execute(&tables, &mut state, compute(99)), SHORT_BUFFER);
        state.delivered.push(0);
        tables.steps.pop();
        assert_eq!(machine.execute(&tables, &mut state, deliver(99, 99)), SHORT_BUFFER);
    }

    #[test]
    fn a_refused_nest_makes_no_machine() {
        let mut nest = text::read(P2.as_bytes()).unwrap();
        nest.weights[1] = 256;
        assert_eq!(Machine::new(&nest, weighted_sum(&nest)).err(), Some(WEIGHT_SPAN));
        nest.weights[1] = 255;
        nest.boundary_values[1] = 65536;
        assert_eq!(Machine::new(&nest, weighted_sum(&nest)).err(), Some(WEIGHT_SPAN));
    }
}
