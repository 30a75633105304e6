//! Tests of the comparison itself: it finds nothing wrong with the rules, and every fault.

use std::sync::atomic::{AtomicU64, Ordering};

use second::machine::ReferenceMachine;
use second::nest::LoopNest;
use second::plan::Plan;
use second::text;
use sheets::wrong::{WRONG_CHOICES, WRONG_DEALINGS};
use sheets::Random;

use crate::entry::{Answer, Entry, Lent, Numbers, Planned, Request};
use crate::judge::Judge;
use crate::lists::{Outcome, Reference, Subject};
use crate::nests;
use crate::paces::{CompleteRun, Order};
use crate::requests::Places;
use crate::rules::{Fault, Rules};
use crate::starts;
use crate::suite::{self, Report, Sizes};

const SEED: u64 = 1;
const SIZES: Sizes = Sizes { accepted: 70, refused: 160, full: 0 };

/// The report on the rules with a fault or none, up to the first nest on which a list fails.
fn report_on(fault: Option<Fault>) -> Report {
    suite::try_until(&Rules { fault }, SEED, SIZES, |report| !report.differences.is_empty())
}

#[test]
fn nothing_is_wrong_with_the_rules() {
    let report = report_on(None);
    assert_eq!(report.differences, Vec::<String>::new());
    assert_eq!(report.total().failed, 0);
}

#[test]
fn all_kinds_of_lists_nests_and_answers_come_up() {
    let report = report_on(None);
    let kinds = [suite::FRESH, suite::ANY_CONTENT, suite::SHORT, suite::REFUSED];
    for kind in kinds.into_iter().chain(Order::ALL.iter().map(|order| order.name())) {
        assert!(report.tallies[kind].lists >= 10, "{kind}");
    }
    let allowed = [suite::FRESH, suite::ANY_CONTENT];
    for kind in allowed.into_iter().chain(Order::ALL.iter().map(|order| order.name())) {
        assert!(report.tallies[kind].computed >= 100, "{kind}");
        assert!(report.tallies[kind].delivered >= 100, "{kind}");
    }
    let spans = [
        ("depth", LoopNest::DEPTHS),
        ("cube dimension", LoopNest::CUBE_DIMENSIONS),
        ("dependences", LoopNest::DEPENDENCE_COUNTS),
        ("chosen vectors", 0..=LoopNest::DEPTHS.end() - 1),
    ];
    for (what, span) in spans {
        assert!(span.into_iter().all(|number| report.nests[&(what, number)] >= 1), "{what}");
    }
    assert!(report.nests[&("depth", 4)] >= 15);
    assert!(report.nests[&("times with gaps", 1)] >= 15);
    assert!(report.nests[&("one boundary value", 0)] >= 15);
    assert!(report.nests[&("one boundary value", 1)] >= 10);
    let answers = report.total().answers;
    assert!((2..=18).filter(|&number| number != 12).all(|number| answers[number] >= 20));
    assert_eq!(answers[12], 0, "12 is not used");
}

#[test]
fn the_same_seed_gives_the_same_lists() {
    let small = Sizes { accepted: 10, refused: 10, full: 0 };
    let answers = |seed| suite::try_all(&Rules { fault: None }, seed, small).total().answers;
    assert_eq!(answers(5), answers(5));
    assert_ne!(answers(5), answers(6));
}

#[test]
fn a_full_nest_has_the_most_iterations() {
    let mut random = Random::new(SEED);
    for depth in nests::full_depths() {
        let full = nests::full(&mut random, depth);
        assert_eq!((full.refusal(), full.depth), (None, depth as i64));
        assert_eq!(full.iteration_count(), LoopNest::MOST_ITERATIONS);
    }
}

const FAULTS: &[Fault] = &[
    Fault::EmptyStepsNumbered,
    Fault::StepsDividedByCommonFactor,
    Fault::LaterRankAtEqualSteps,
    Fault::StepsCompared16Bits,
    Fault::StepsComparedSigned,
    Fault::DoneByteOfTwo,
    Fault::DoneOnlyIfOne,
    Fault::DoneBeforeSourcesAreTested,
    Fault::UndeliveredMessageIgnored,
    Fault::SourceOnSameProcessorIgnored,
    Fault::OwnMessagesNeeded,
    Fault::WaitingAlthoughAllIsThere,
    Fault::IdleWithIterationsLeft,
    Fault::FirstComputeFillsTheTable,
    Fault::ValueOfUncomputedTaken,
    Fault::BoundaryValueIgnored,
    Fault::FirstBoundaryValueForAll,
    Fault::BoundaryValuesInTurn,
    Fault::RankLeftOutOfValue,
    Fault::ValueWrittenWhenWaiting,
    Fault::NeighbourValueWritten,
    Fault::SecondBitSet,
    Fault::OtherBitsCleared,
    Fault::StrayBitsCleared,
    Fault::DeliveredTwice,
    Fault::DeliveredBeforeSource,
    Fault::DeliveredWithoutMessage,
    Fault::DeliveredAcrossBoundary,
    Fault::DeliveryMarksSource,
    Fault::ProcessorAsByte,
    Fault::ProcessorAs32Bits,
    Fault::ProcessorOneTooGreat,
    Fault::ProcessorsOf64,
    Fault::RankAs16Bits,
    Fault::RankAs32Bits,
    Fault::RankOneTooGreat,
    Fault::DependenceModulo8,
    Fault::DependenceModulo64,
    Fault::DependenceOneTooGreat,
    Fault::PlaceBeforeShortBuffer,
    Fault::IdleBeforePlace,
    Fault::WaitingBeforeIdle,
    Fault::StepsLengthUntested,
    Fault::ProcessorsLengthUntested,
    Fault::ValuesLengthUntested,
    Fault::DoneLengthUntested,
    Fault::DeliveredLengthUntested,
    Fault::ShortBufferBeforeNest,
    Fault::LengthsAreIterations,
    Fault::FourthLoopRefused,
    Fault::FifthLoopAccepted,
    Fault::FourthLoopUnread,
    Fault::DependencesInRowsOfThree,
    Fault::UnusedLoopPlacesRead,
    Fault::UnusedPlacesRead,
    Fault::UnusedBoundaryPlacesRead,
    Fault::WeightsUntested,
    Fault::OnlyFirstBoundaryValueTested,
    Fault::LastBoundaryValueUntested,
    Fault::NestAs32Bits,
    Fault::KindZeroComputes,
    Fault::KindsSwapped,
    Fault::OtherKindsDeliver,
    Fault::KindAsByte,
    Fault::KindAs32Bits,
    Fault::KindBeforeShortBuffer,
    Fault::SecondNumberOfComputeRead,
    Fault::MadeKeptWhenRefused,
    Fault::MadeWithoutValue,
    Fault::MadeWithoutRank,
    Fault::EntryBehindWritten,
    Fault::EntriesBehindSearched,
    Fault::SourceOfMessageMustBeDone,
];

/// Those of the faults in which no list fails.
fn missed(faults: impl IntoIterator<Item = Fault>) -> Vec<Fault> {
    let is_missed = |fault: &Fault| report_on(Some(*fault)).total().failed == 0;
    faults.into_iter().filter(is_missed).collect()
}

#[test]
fn every_fault_is_found() {
    assert_eq!(missed(FAULTS.iter().copied()), []);
}

/// Wrong ways to deal bits to four directions, and to choose two auxiliary vectors.
#[test]
fn every_wrong_plan_of_four_loops_is_found() {
    assert_eq!(missed((0..WRONG_DEALINGS.len()).map(Fault::BitsDealtWrongly)), []);
    assert_eq!(missed((0..WRONG_CHOICES.len()).map(Fault::VectorsChosenWrongly)), []);
}

/// What is damaged at one move of a list.
#[derive(Clone, Copy, Debug)]
enum Damage {
    Number,
    MadeRank,
    MadeValue,
    Value(usize),
    Done(usize),
    Delivered(usize),
}

/// The rules, with a damage at one move: the lowest bit of what is damaged is changed.
struct Damaged {
    damage: Damage,
    moves_before: AtomicU64,
}

impl Entry for Damaged {
    fn plan(&self, nest: &Numbers, tables: Planned) -> u8 {
        Rules { fault: None }.plan(nest, tables)
    }

    fn make_move(&self, nest: &Numbers, request: Request, lent: Lent) -> Answer {
        let Lent { steps, processors, values, done, delivered } = lent;
        let again = Lent { steps, processors, values, done, delivered };
        let mut answer = Rules { fault: None }.make_move(nest, request, again);
        if self.moves_before.fetch_sub(1, Ordering::Relaxed) == 0 {
            match self.damage {
                Damage::Number => answer.number ^= 1,
                Damage::MadeRank => answer.made[0] ^= 1,
                Damage::MadeValue => answer.made[1] ^= 1,
                Damage::Value(place) => values[place] ^= 1,
                Damage::Done(place) => done[place] ^= 1,
                Damage::Delivered(place) => delivered[place] ^= 1,
            }
        }
        answer
    }
}

/// Document 01's example with six iterations.
const EXAMPLE: &str =
    "     2     2     1\n     0     1\n     0     2\n     1     1\n     0     1\n     \
                       1     0\n     1     2     3\n";

/// A complete run of the example on an entry, with two entries behind the last in each buffer.
fn run_of_example(entry: &dyn Entry) -> Outcome {
    let nest = text::read(EXAMPLE.as_bytes()).expect("an accepted nest");
    let mut random = Random::new(SEED);
    let numbers = nests::numbers_of(&mut random, &nest);
    let plan = Plan::new(&nest);
    let judge = Judge::new(&nest);
    let mut start = starts::fresh(&mut random, entry, &numbers, &nest, &plan).expect("its plan");
    start.values.resize(8, 77);
    start.done.resize(8, 77);
    start.delivered.resize(8, 77);
    let places = Places::of_plan(&nest, &plan);
    let mut machine = ReferenceMachine::new(&nest);
    let reference = Reference::new(&mut machine, &plan, true);
    let mut pace = CompleteRun::new(&mut random, &places, &nest, &plan, Order::RoundRobin);
    let subject = Subject { entry, numbers: &numbers, judge: &judge };
    subject.compare(&mut random, &start, Some(reference), &mut pace)
}

#[test]
fn damage_at_any_move_is_reported() {
    let whole = run_of_example(&Rules { fault: None });
    assert_eq!(whole.difference, None);
    assert_eq!((whole.computed, whole.delivered), (6, 2));
    let mut damages = vec![Damage::Number, Damage::MadeRank, Damage::MadeValue];
    damages.extend((0..8).map(Damage::Value));
    damages.extend((0..8).map(Damage::Done));
    damages.extend((0..8).map(Damage::Delivered));
    for damage in damages {
        for move_number in 0..whole.moves() {
            let entry = Damaged { damage, moves_before: AtomicU64::new(move_number) };
            let outcome = run_of_example(&entry);
            assert!(outcome.difference.is_some(), "{damage:?} at move {move_number}");
            assert_eq!(outcome.moves(), move_number + 1);
        }
    }
}
