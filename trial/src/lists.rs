//! One list of moves from start to end, compared after each move.

use second::machine::ReferenceMachine;
use second::plan::Plan;
use second::refusal::DONE;
use sheets::Random;

use crate::buffers::{Buffers, Contents};
use crate::entry::{Answer, Entry, Numbers, Request, COMPUTE};
use crate::judge::{Expected, Judge};
use crate::paces::Pace;

/// One more than the greatest number that a move answers.
pub const NUMBERS_END: usize = 19;

/// How a list fared.
#[derive(Clone, Debug, Default)]
pub struct Outcome {
    pub computed: u64,
    pub delivered: u64,
    /// How many moves were answered by each number.
    pub answers: [u64; NUMBERS_END],
    /// The first difference, in words.
    pub difference: Option<String>,
}

impl Outcome {
    /// A list that could not begin.
    pub fn not_begun(difference: String) -> Outcome {
        Outcome { difference: Some(difference), ..Outcome::default() }
    }

    /// How many moves were made.
    pub fn moves(&self) -> u64 {
        self.answers.iter().sum()
    }

    fn count(&mut self, request: Request, answer: Answer) {
        self.answers[usize::from(answer.number)] += 1;
        if u32::from(answer.number) == DONE {
            *(if request.kind == COMPUTE { &mut self.computed } else { &mut self.delivered }) += 1;
        }
    }
}

/// What holds of lists that begin on a fresh state and the plan's own tables.
pub struct Reference<'r, 'a> {
    machine: &'r mut ReferenceMachine<'a>,
    plan: &'r Plan,
    /// Whether no move is left at the end of the list.
    is_complete: bool,
}

impl<'r, 'a> Reference<'r, 'a> {
    /// A reference machine before its first move.
    pub fn new(
        machine: &'r mut ReferenceMachine<'a>,
        plan: &'r Plan,
        is_complete: bool,
    ) -> Reference<'r, 'a> {
        machine.computed.clear();
        machine.delivered.clear();
        Reference { machine, plan, is_complete }
    }

    /// What the buffers must hold: done bytes and delivered bits are the machine's sets, computed
    /// values the sequential loop's, all else as at the start.
    fn contents(&self, start: &Contents) -> Contents {
        let mut contents = start.clone();
        for &rank in &self.machine.computed {
            contents.values[rank] = self.plan.values[rank] as u16;
            contents.done[rank] = 1;
        }
        for &(rank, dependence) in &self.machine.delivered {
            contents.delivered[rank] |= 1 << dependence;
        }
        contents
    }

    /// What is wrong at the end of the list.
    fn difference(&self, start: &Contents, buffers: &Buffers, outcome: &Outcome) -> Option<String> {
        if let Some(name) = buffers.first_difference(&self.contents(start)) {
            return Some(format!("at the end: {name} not as the reference machine has it"));
        }
        let (computed, delivered) = (self.machine.computed.len(), self.machine.delivered.len());
        let allowed = outcome.answers[0];
        if allowed != (computed + delivered) as u64 {
            return Some(format!("{allowed} allowed, {computed} computed, {delivered} delivered"));
        }
        let (iterations, messages) =
            (self.plan.iterations.count(), self.plan.mapping.messages.len());
        if self.is_complete && (computed, delivered) != (iterations, messages) {
            return Some(format!("no move left at {computed} of {iterations} iterations"));
        }
        None
    }
}

/// What a list of moves is tried on.
pub struct Subject<'s, 'a> {
    pub entry: &'s dyn Entry,
    pub numbers: &'s Numbers,
    pub judge: &'s Judge<'a>,
}

impl Subject<'_, '_> {
    /// Tries a list of moves; ends at the first difference.
    pub fn compare(
        &self,
        random: &mut Random,
        start: &Contents,
        mut reference: Option<Reference>,
        pace: &mut dyn Pace,
    ) -> Outcome {
        let mut buffers = Buffers::new(start);
        let mut expected = Expected::new(self.judge, start);
        let mut outcome = Outcome::default();
        while let Some(request) = pace.next(random) {
            let answer = expected.make_move(request);
            let given = self.entry.make_move(self.numbers, request, buffers.lend());
            let by_reference = reference.as_mut().map(|r| r.machine.execute(request.as_move()));
            outcome.difference = first_of([
                (given != answer).then(|| format!("answered {given:?}, must be {answer:?}")),
                buffers.first_difference(expected.contents()).map(|name| format!("{name} differ")),
                by_reference
                    .filter(|&number| number != u32::from(given.number))
                    .map(|number| format!("answered {given:?}, by the reference {number}")),
            ])
            .map(|what| format!("move {}, {request:?}: {what}", outcome.moves()));
            outcome.count(request, answer);
            if outcome.difference.is_some() {
                return outcome;
            }
            pace.learn(request, answer);
        }
        outcome.difference = reference.and_then(|r| r.difference(start, &buffers, &outcome));
        outcome
    }
}

/// The first difference of several, if there is one.
fn first_of(differences: [Option<String>; 3]) -> Option<String> {
    differences.into_iter().flatten().next()
}
