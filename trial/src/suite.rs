//! All lists of a seed, and their counts.

use std::collections::BTreeMap;

use second::machine::ReferenceMachine;
use second::nest::LoopNest;
use second::plan::Plan;
use second::text;
use sheets::boundary::are_equal;
use sheets::gaps::time_count;
use sheets::Random;

use crate::buffers::Contents;
use crate::entry::{Entry, Numbers};
use crate::judge::Judge;
use crate::lists::{Outcome, Reference, Subject, NUMBERS_END};
use crate::nests;
use crate::paces::{AnyMoves, CompleteRun, Order, Pace};
use crate::requests::Places;
use crate::starts;

/// How many nests of each sort are tried.
#[derive(Clone, Copy)]
pub struct Sizes {
    pub accepted: u64,
    pub refused: u64,
    pub full: u64,
}

/// The kinds of lists beside the complete runs.
pub const FRESH: &str = "fresh state on the plan, any moves";
pub const ANY_CONTENT: &str = "tables and state of any content";
pub const SHORT: &str = "a buffer too short";
pub const REFUSED: &str = "refused nest";

/// Nests of at most so many iterations have a complete run at every pace, others at one pace each.
const SMALL: usize = 40;
/// How many lists of any moves a nest has, on the plan and on any content.
const FRESH_LISTS: u64 = 2;
const ANY_CONTENT_LISTS: u64 = 3;
/// How many moves a list has of which all are refused.
const REFUSED_MOVES: usize = 12;

/// The counts of the lists of one kind.
#[derive(Clone, Debug, Default)]
pub struct Tally {
    pub lists: u64,
    pub failed: u64,
    pub computed: u64,
    pub delivered: u64,
    pub answers: [u64; NUMBERS_END],
}

/// The counts of all lists, by kind, and the differences found.
#[derive(Default)]
pub struct Report {
    pub tallies: BTreeMap<&'static str, Tally>,
    /// How many accepted nests there were of each depth, cube dimension, number of dependences and
    /// number of chosen vectors, how many whose times have a gap (1) or none (0), and how many with
    /// one boundary value for all dependences (1) or different ones (0).
    pub nests: BTreeMap<(&'static str, i64), u64>,
    pub differences: Vec<String>,
}

impl Report {
    /// Takes a list's outcome in.
    fn add(&mut self, kind: &'static str, outcome: Outcome, place: impl FnOnce() -> String) {
        let tally = self.tallies.entry(kind).or_default();
        tally.lists += 1;
        tally.computed += outcome.computed;
        tally.delivered += outcome.delivered;
        for (sum, count) in tally.answers.iter_mut().zip(outcome.answers) {
            *sum += count;
        }
        if let Some(difference) = outcome.difference {
            tally.failed += 1;
            self.differences.push(format!("{kind}: {difference}\n{}", place()));
        }
    }

    fn add_nest(&mut self, nest: &LoopNest, plan: &Plan) {
        let has_gap = plan.partition.step_count < time_count(nest);
        let numbers = [
            ("depth", nest.depth),
            ("cube dimension", nest.cube_dimension),
            ("dependences", nest.dependence_count),
            ("chosen vectors", plan.partition.beta() as i64),
            ("times with gaps", i64::from(has_gap)),
            ("one boundary value", i64::from(are_equal(&nest.boundary_values))),
        ];
        for key in numbers {
            *self.nests.entry(key).or_default() += 1;
        }
    }

    /// The counts of all kinds together.
    pub fn total(&self) -> Tally {
        let mut total = Tally::default();
        for tally in self.tallies.values() {
            total.lists += tally.lists;
            total.failed += tally.failed;
            total.computed += tally.computed;
            total.delivered += tally.delivered;
            for (sum, count) in total.answers.iter_mut().zip(tally.answers) {
                *sum += count;
            }
        }
        total
    }
}

/// Tries all lists of a seed on an entry.
pub fn try_all(entry: &dyn Entry, seed: u64, sizes: Sizes) -> Report {
    try_until(entry, seed, sizes, |_| false)
}

/// Tries the lists of a seed, nest by nest, until the report is enough.
pub fn try_until(
    entry: &dyn Entry,
    seed: u64,
    sizes: Sizes,
    is_enough: impl Fn(&Report) -> bool,
) -> Report {
    let accepted = (0..sizes.accepted).map(|number| (Sort::Accepted, number));
    let full = (0..sizes.full).map(|number| (Sort::Full, number));
    let refused = (0..sizes.refused).map(|number| (Sort::Refused, number));
    let mut report = Report::default();
    for (sort, number) in refused.chain(accepted).chain(full) {
        if is_enough(&report) {
            break;
        }
        try_nest(entry, seed, sort, number, &mut report);
    }
    report
}

/// What a nest is made as.
#[derive(Clone, Copy)]
enum Sort {
    Accepted,
    Full,
    Refused,
}

/// Tries the lists of the nest with the given number among those of a sort.
fn try_nest(entry: &dyn Entry, seed: u64, sort: Sort, number: u64, report: &mut Report) {
    let own = Random::new(!(3 * number + sort as u64)).bits();
    let mut random = Random::new(Random::new(seed).bits() ^ own);
    match sort {
        Sort::Accepted => {
            let (nest, plan) = accepted_with_plan(&mut random, number);
            try_accepted(entry, &mut random, number, &nest, plan, report);
        }
        Sort::Full => {
            let depths: Vec<usize> = nests::full_depths().collect();
            let nest = nests::full(&mut random, depths[number as usize % depths.len()]);
            try_accepted(entry, &mut random, number, &nest, Plan::new(&nest), report);
        }
        Sort::Refused => try_refused(entry, &mut random, number, report),
    }
}

/// An accepted nest with its plan. Two of three have a message for every fourth iteration at least.
fn accepted_with_plan(random: &mut Random, number: u64) -> (LoopNest, Plan) {
    for kind in number.. {
        let nest = nests::accepted(random, kind);
        let plan = Plan::new(&nest);
        if number.is_multiple_of(3) || 4 * plan.mapping.messages.len() >= plan.iterations.count() {
            return (nest, plan);
        }
    }
    unreachable!("the kinds come round without end")
}

/// An accepted nest with all that its lists need.
struct Accepted<'s, 'a> {
    entry: &'s dyn Entry,
    nest: &'a LoopNest,
    numbers: Numbers,
    judge: Judge<'a>,
    plan: Plan,
    places: Places,
}

impl Accepted<'_, '_> {
    fn subject(&self) -> Subject<'_, '_> {
        Subject { entry: self.entry, numbers: &self.numbers, judge: &self.judge }
    }

    /// A list on a fresh state and the entry's own plan.
    fn on_fresh(
        &self,
        random: &mut Random,
        machine: &mut ReferenceMachine,
        is_complete: bool,
        pace: &mut dyn Pace,
    ) -> Outcome {
        match starts::fresh(random, self.entry, &self.numbers, self.nest, &self.plan) {
            Err(difference) => Outcome::not_begun(difference),
            Ok(start) => {
                let reference = Reference::new(machine, &self.plan, is_complete);
                self.subject().compare(random, &start, Some(reference), pace)
            }
        }
    }

    /// A list of any moves on a fresh state.
    fn any_moves(&self, random: &mut Random, machine: &mut ReferenceMachine) -> Outcome {
        let left = random.between(1, 200) as usize;
        let mut pace = AnyMoves { places: &self.places, left };
        self.on_fresh(random, machine, false, &mut pace)
    }

    /// A complete run.
    fn complete(
        &self,
        random: &mut Random,
        machine: &mut ReferenceMachine,
        order: Order,
    ) -> Outcome {
        let mut pace = CompleteRun::new(random, &self.places, self.nest, &self.plan, order);
        self.on_fresh(random, machine, true, &mut pace)
    }

    /// A list of any moves on tables and state of any content.
    fn any_content(&self, random: &mut Random) -> Outcome {
        let start = starts::any(random, self.nest, &self.plan);
        let places = self.places_in(&start);
        let mut pace = AnyMoves { places: &places, left: random.between(1, 80) as usize };
        self.subject().compare(random, &start, None, &mut pace)
    }

    /// A list on buffers of which the one at the given place, at least, is too short.
    fn short(&self, random: &mut Random, place: usize) -> Outcome {
        let mut start = starts::any(random, self.nest, &self.plan);
        starts::shorten(random, &mut start, self.places.iterations, place);
        let mut pace = AnyMoves { places: &self.places, left: REFUSED_MOVES };
        self.subject().compare(random, &start, None, &mut pace)
    }

    /// The places of the nest, with the processor entries of a lent table.
    fn places_in(&self, start: &Contents) -> Places {
        Places {
            held: start.processors.iter().map(|&number| usize::from(number)).collect(),
            messages: self.places.messages.clone(),
            ..self.places
        }
    }
}

/// Tries all lists of an accepted nest.
fn try_accepted(
    entry: &dyn Entry,
    random: &mut Random,
    number: u64,
    nest: &LoopNest,
    plan: Plan,
    report: &mut Report,
) {
    let numbers = nests::numbers_of(random, nest);
    let places = Places::of_plan(nest, &plan);
    let subject = Accepted { entry, nest, numbers, judge: Judge::new(nest), plan, places };
    let mut machine = ReferenceMachine::new(nest);
    report.add_nest(nest, &subject.plan);
    let place = || text::write(nest);
    for _ in 0..FRESH_LISTS {
        report.add(FRESH, subject.any_moves(random, &mut machine), place);
    }
    for &order in orders(number, subject.places.iterations) {
        report.add(order.name(), subject.complete(random, &mut machine, order), place);
    }
    for _ in 0..ANY_CONTENT_LISTS {
        report.add(ANY_CONTENT, subject.any_content(random), place);
    }
    report.add(SHORT, subject.short(random, number as usize % 5), place);
}

/// The orders of a nest's complete runs.
fn orders(number: u64, iterations: usize) -> &'static [Order] {
    if iterations <= SMALL {
        Order::ALL
    } else {
        let place = number as usize % Order::ALL.len();
        &Order::ALL[place..place + 1]
    }
}

/// Tries a list on a refused nest: any moves, on buffers of any length.
fn try_refused(entry: &dyn Entry, random: &mut Random, number: u64, report: &mut Report) {
    let (_, nest) = nests::refused(random, number);
    let numbers = nests::numbers_of(random, &nest);
    let judge = Judge::new(&nest);
    let subject = Subject { entry, numbers: &numbers, judge: &judge };
    let start = starts::for_refused(random);
    let places = Places::of_nothing();
    let mut pace = AnyMoves { places: &places, left: REFUSED_MOVES };
    let outcome = subject.compare(random, &start, None, &mut pace);
    report.add(REFUSED, outcome, || format!("{nest:?}"));
}
