//! Places of a nest that are no part of it: those of loops beyond its depth, in limits, time vector
//! and every dependence, and those of dependences beyond its number of them. Whatever they hold,
//! every entry answers and leaves what it does with zeros there. A nest of three loops has such a
//! place behind each of its rows since there may be four (document 02, U11).

mod common;

use common::*;
use rowlock::{exported, Nest};
use second::nest::LoopNest;
use sheets::Random;
use trial::entry::{Numbers, NUMBERS};
use trial::nests::numbers_over;

/// What every entry that takes a nest answers and leaves: numbers, and tables with an entry more
/// than there are iterations.
#[derive(Debug, Default, PartialEq)]
struct Answers {
    numbers: Vec<usize>,
    text: Vec<u8>,
    steps: Vec<u32>,
    blocks: Vec<u16>,
    processors: Vec<u8>,
    values: Vec<u16>,
    done: Vec<u8>,
    delivered: Vec<u8>,
}

impl Answers {
    /// The answers for a nest whose iterations are not more than so many.
    fn of(nest: &Nest, iterations: usize) -> Answers {
        let n = iterations + 1;
        let mut answers = Answers {
            text: vec![77; rowlock::MAX_TEXT],
            steps: vec![77; n],
            blocks: vec![77; n],
            processors: vec![77; n],
            values: vec![77; n],
            done: vec![0; n],
            delivered: vec![0; n],
            ..Answers::default()
        };
        answers.ask(nest);
        answers.fill_and_plan(nest);
        answers.run(nest);
        answers
    }

    /// Takes the number that a call answers, and what it stores beside it.
    fn take(&mut self, number: u8, stored: &[usize]) {
        self.numbers.push(number.into());
        self.numbers.extend(stored);
    }

    /// `check`, `inspect`, `most_receivers`, `write` and `locate`.
    fn ask(&mut self, nest: &Nest) {
        let (mut stored, mut span) = (77, [77; 2]);
        self.take(exported::check(nest), &[]);
        self.take(exported::inspect(nest, &mut stored), &[stored]);
        self.take(exported::most_receivers(nest, &mut stored), &[stored]);
        let number = exported::write(nest, &mut self.text, &mut stored);
        self.take(number, &[stored]);
        for index in [nest.lower[0], nest.upper[0], nest.lower[0].wrapping_sub(1)] {
            let number = exported::locate(nest, self.steps.len(), index, &mut span);
            self.take(number, &span);
        }
    }

    /// `fill`, into a table of its own, and `plan`.
    fn fill_and_plan(&mut self, nest: &Nest) {
        let (mut filled, mut counts) = (vec![77; self.values.len()], [77; 5]);
        self.take(exported::fill(nest, &mut filled), &[]);
        self.numbers.extend(filled.iter().map(|&value| usize::from(value)));
        let Answers { steps, blocks, processors, values, .. } = self;
        let number = exported::plan(nest, steps, blocks, processors, values, &mut counts);
        self.take(number, &counts);
    }

    /// Two rounds of a compute on every processor and a delivery of every message, and one place
    /// more of each.
    fn run(&mut self, nest: &Nest) {
        let iterations = self.steps.len();
        for _ in 0..2 {
            for processor in 0..=64 {
                self.make_move(nest, [exported::COMPUTE, processor, 0]);
            }
            for (rank, dependence) in
                (0..iterations).flat_map(|rank| (0..9).map(move |d| (rank, d)))
            {
                self.make_move(nest, [exported::DELIVER, rank, dependence]);
            }
        }
    }

    fn make_move(&mut self, nest: &Nest, request: [usize; 3]) {
        let mut made = [77; 2];
        let Answers { steps, processors, values, done, delivered, .. } = self;
        let number = exported::make_move(
            nest, request, steps, processors, values, done, delivered, &mut made,
        );
        self.take(number, &made);
    }
}

/// Numbers that would be refused, or change a plan, in a place that is a part of a nest.
const JUNK: [i64; 8] = [1, -1, 7, 17, 1001, 65536, i64::MIN, i64::MAX];

/// The places that are no part of a nest.
fn unused(nest: &LoopNest) -> Vec<usize> {
    let [zeros, ones] = [0, 1].map(|number| numbers_over([number; NUMBERS], nest));
    (0..NUMBERS).filter(|&place| zeros[place] != ones[place]).collect()
}

/// How many nests of a depth have been compared, and how many of them are accepted.
type Compared = [[usize; 2]; 5];

/// Compares a nest with zeros in its unused places with the same nest with junk there: the same
/// number in all of them, and any in each.
fn compare(random: &mut Random, nest: &LoopNest, compared: &mut Compared) {
    let iterations = if nest.refusal().is_none() { nest.iteration_count() as usize } else { 20 };
    let zeros = numbers_over([0; NUMBERS], nest);
    let expected = Answers::of(&zeros.into(), iterations);
    let all = JUNK.map(|junk| numbers_over([junk; NUMBERS], nest));
    let any = numbers_over([0; NUMBERS].map(|_| random.pick(&JUNK)), nest);
    let bits = numbers_over([0; NUMBERS].map(|_| random.bits() as i64), nest);
    for numbers in [all.to_vec(), vec![any, bits]].concat() {
        assert_eq!(Answers::of(&numbers.into(), iterations), expected, "{numbers:?}");
    }
    let [count, accepted] = &mut compared[nest.lower.len()];
    *count += 1;
    *accepted += usize::from(nest.refusal().is_none());
}

#[test]
fn unused_places_change_no_answer_and_no_table() {
    let mut random = Random::new(71);
    let mut compared = Compared::default();
    for nest in accepted(72, 400).iter().filter(|nest| nest.iteration_count() <= 60) {
        compare(&mut random, nest, &mut compared);
    }
    for (_, nest) in refused(73, 120) {
        compare(&mut random, &nest, &mut compared);
    }
    for depth in 1..=3 {
        assert!(compared[depth][1] >= 15, "{depth}: {compared:?}");
    }
    assert!(
        compared[4][1] >= 15 && compared.iter().flatten().sum::<usize>() >= 250,
        "{compared:?}"
    );
}

/// A nest with a number in one place, and zeros in all that are no part of it.
fn with_one(zeros: &Numbers, place: usize, number: i64) -> Nest {
    let mut numbers = *zeros;
    numbers[place] = number;
    numbers.into()
}

/// Each unused place alone, at both ends of its type.
#[test]
fn no_unused_place_alone_changes_an_answer() {
    let mut places = [0; 5];
    for nest in accepted(74, 300).iter().filter(|nest| nest.iteration_count() <= 16) {
        let (zeros, iterations) =
            (numbers_over([0; NUMBERS], nest), nest.iteration_count() as usize);
        let expected = Answers::of(&zeros.into(), iterations);
        for place in unused(nest) {
            for junk in [i64::MIN, 1, i64::MAX] {
                let answers = Answers::of(&with_one(&zeros, place, junk), iterations);
                assert_eq!(answers, expected, "{junk} at {place} of {nest:?}");
            }
            places[nest.depth as usize] += 1;
        }
    }
    assert!(places[1..=3].iter().all(|&count| count >= 100), "{places:?}");
}

/// 63 numbers, of which three loops and two dependences take 3 + 3 * 3 + 2 * 3 + 2 + 2 = 22; four
/// loops and eight dependences take all.
#[test]
fn the_places_that_are_no_part_of_a_nest() {
    let nest = |depth: usize, count: usize| LoopNest {
        depth: depth as i64,
        dependence_count: count as i64,
        cube_dimension: 0,
        lower: vec![0; depth],
        upper: vec![0; depth],
        time_vector: vec![1; depth],
        dependences: vec![vec![1; depth]; count],
        boundary_values: vec![1; count],
        weights: vec![1; count],
    };
    assert_eq!(unused(&nest(4, 8)), []);
    assert_eq!(unused(&nest(3, 8)), [6, 10, 14, 18, 22, 26, 30, 34, 38, 42, 46]);
    assert_eq!(unused(&nest(3, 2)).len(), NUMBERS - 22);
    assert_eq!(unused(&nest(4, 7)), [43, 44, 45, 46, 54, 62]);
}
