//! What a move must answer and leave in the buffers, by the second planner's run on state tables.

use second::machine::{Machine, State, Tables};
use second::nest::LoopNest;
use second::refusal::{Number, DONE};
use second::sequential;

use crate::buffers::Contents;
use crate::entry::{Answer, Request, DELIVER};

type WeightedSum<'a> = Box<dyn Fn(&[i64], usize, &[i64]) -> i64 + 'a>;

/// The second planner's machine for a nest, or the refusal of the nest.
pub struct Judge<'a> {
    machine: Result<Machine<'a, WeightedSum<'a>>, Number>,
}

impl<'a> Judge<'a> {
    pub fn new(nest: &'a LoopNest) -> Judge<'a> {
        let rule: WeightedSum = Box::new(sequential::weighted_sum(nest));
        Judge { machine: Machine::new(nest, rule) }
    }
}

/// A run by the second planner, from the same start as the run that is tried.
pub struct Expected<'j, 'a> {
    judge: &'j Judge<'a>,
    tables: Tables,
    state: State,
    contents: Contents,
}

impl<'j, 'a> Expected<'j, 'a> {
    pub fn new(judge: &'j Judge<'a>, start: &Contents) -> Expected<'j, 'a> {
        let tables = Tables {
            steps: start.steps.iter().map(|&step| i64::from(step)).collect(),
            processors: start.processors.iter().map(|&number| usize::from(number)).collect(),
        };
        let state = State {
            values: start.values.iter().map(|&value| i64::from(value)).collect(),
            done: start.done.clone(),
            delivered: start.delivered.clone(),
        };
        Expected { judge, tables, state, contents: start.clone() }
    }

    /// What the buffers must hold now.
    pub fn contents(&self) -> &Contents {
        &self.contents
    }

    /// Makes a move and tells what it must answer.
    pub fn make_move(&mut self, request: Request) -> Answer {
        let number = match &self.judge.machine {
            Err(refusal) => *refusal,
            Ok(machine) => machine.execute(&self.tables, &mut self.state, request.as_move()),
        };
        let made = if number == DONE { self.made(request) } else { [0, 0] };
        self.take_contents();
        Answer { number: number as u8, made }
    }

    /// Rank and value of the iteration that was computed, by the done byte that changed; or rank
    /// and dependence number of the message that was delivered.
    fn made(&self, request: Request) -> [usize; 2] {
        if request.kind == DELIVER {
            return [request.first, request.second];
        }
        let done = self.state.done.iter().zip(&self.contents.done);
        let changed: Vec<usize> =
            done.enumerate().filter(|(_, (now, before))| now != before).map(|(k, _)| k).collect();
        let [rank] = changed[..] else { panic!("a compute changes one done byte") };
        [rank, self.state.values[rank] as usize]
    }

    /// Takes the state over into the form of the lent buffers.
    fn take_contents(&mut self) {
        let Contents { values, done, delivered, .. } = &mut self.contents;
        for (value, now) in values.iter_mut().zip(&self.state.values) {
            *value = u16::try_from(*now).expect("a value below 65536");
        }
        done.copy_from_slice(&self.state.done);
        delivered.copy_from_slice(&self.state.delivered);
    }
}
