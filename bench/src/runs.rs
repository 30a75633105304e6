//! Times complete runs by moves: the proved entry beside the plain machine, on one list of moves.

use std::hint::black_box;
use std::time::Instant;

use crate::goals::Reached;
use crate::machine::Machine;
use crate::nest::{Answer, Move, Nest, State, Tables};
use crate::plain::{is_deepest, DEEPEST, OTHERS};
use crate::proved;

/// A list of moves in stretches of one kind, computes and deliveries in turn.
pub struct Schedule {
    stretches: Vec<Vec<Move>>,
    /// Allowed computes, refused computes, deliveries.
    pub counts: [usize; 3],
}

/// A complete run, round by round: a compute on every processor in order, then all messages of what
/// the round computed, until a round computes nothing.
pub fn round_robin<const N: usize>(
    machine: &Machine<N>,
    tables: &Tables,
    processors: usize,
) -> Schedule {
    let mut state = State::fresh(tables.counts[0]);
    let mut schedule = Schedule { stretches: Vec::new(), counts: [0; 3] };
    loop {
        let computes: Vec<Move> = (0..processors).map(Move::Compute).collect();
        let answers: Vec<Answer> = computes
            .iter()
            .map(|request| machine.make_move(*request, tables, &mut state))
            .collect();
        let computed: Vec<usize> = answers
            .iter()
            .filter(|answer| answer.number == 0)
            .map(|answer| answer.made[0])
            .collect();
        let deliveries: Vec<Move> =
            computed.iter().flat_map(|rank| machine.messages_from(*rank, tables)).collect();
        for request in &deliveries {
            assert_eq!(
                machine.make_move(*request, tables, &mut state).number,
                0,
                "{request:?} is ready"
            );
        }
        schedule.counts[0] += computed.len();
        schedule.counts[1] += processors - computed.len();
        schedule.counts[2] += deliveries.len();
        schedule.stretches.extend([computes, deliveries]);
        if computed.is_empty() {
            return schedule;
        }
    }
}

impl Schedule {
    /// All moves in order.
    pub fn moves(&self) -> impl Iterator<Item = &Move> {
        self.stretches.iter().flatten()
    }

    /// Makes all moves from a fresh state; answers the nanoseconds of the computes and of the
    /// deliveries.
    fn time(
        &self,
        iterations: usize,
        mut make_move: impl FnMut(Move, &mut State) -> Answer,
    ) -> [f64; 2] {
        let mut state = State::fresh(iterations);
        let mut times = [0.0; 2];
        for (k, stretch) in self.stretches.iter().enumerate() {
            let start = Instant::now();
            for request in stretch {
                black_box(make_move(black_box(*request), &mut state));
            }
            times[k % 2] += start.elapsed().as_nanos() as f64;
        }
        times
    }

    /// Stops unless the proved entry and the plain machine answer every move alike and end in the
    /// table of the sequential loop.
    fn compare<const N: usize>(&self, nest: &Nest, machine: &Machine<N>, tables: &Tables) {
        let [iterations, _, _, _, messages] = tables.counts;
        let [mut ours, mut theirs] = [State::fresh(iterations), State::fresh(iterations)];
        for request in self.moves() {
            let answer = proved::make_move(nest, *request, tables, &mut ours);
            assert_eq!(answer, machine.make_move(*request, tables, &mut theirs), "{request:?}");
            assert!(ours == theirs, "the states differ after {request:?}");
        }
        assert!(ours.values[..] == tables.values[..iterations], "the run ends in another table");
        assert_eq!(
            [self.counts[0], self.counts[2]],
            [iterations, messages],
            "the run is not complete"
        );
    }
}

/// The time of a move that is refused for its place, whose cost is that of the checks alone.
fn refused_time(tables: &Tables, mut make_move: impl FnMut(Move, &mut State) -> Answer) -> f64 {
    let mut state = State::fresh(tables.counts[0]);
    let repetitions = 1000;
    let start = Instant::now();
    for _ in 0..repetitions {
        black_box(make_move(black_box(Move::Deliver(usize::MAX, 0)), &mut state));
    }
    start.elapsed().as_nanos() as f64 / repetitions as f64
}

/// Least times in nanoseconds: of the whole run, of a compute, of a delivery, of a move refused for
/// its place.
struct Times([f64; 4]);

impl Times {
    /// These times or those of one more run, whichever are less.
    fn least(
        self,
        schedule: &Schedule,
        tables: &Tables,
        mut make_move: impl FnMut(Move, &mut State) -> Answer,
    ) -> Times {
        let [computes, deliveries] = schedule.time(tables.counts[0], &mut make_move);
        let refused = refused_time(tables, make_move);
        let [allowed, waiting, delivered] = schedule.counts.map(|count| count as f64);
        let now = [
            computes + deliveries,
            computes / (allowed + waiting),
            deliveries / delivered,
            refused,
        ];
        let mut least = self.0;
        least.iter_mut().zip(now).for_each(|(old, new)| *old = old.min(new));
        Times(least)
    }
}

/// Times complete runs of a nest by the proved entry and by the plain machine in turn, and prints
/// what they cost.
pub fn report(name: &str, nest: &Nest, rounds: usize, reached: &mut Reached) {
    let mut tables = Tables::new([4096; 4]);
    assert_eq!(proved::plan(nest, &mut tables), 0, "{name} is accepted");
    println!("\na complete run of {name} on {} processors by moves", tables.counts[3]);
    let [ours, theirs] = match is_deepest(nest) {
        true => timed::<DEEPEST>(nest, &tables, rounds),
        false => timed::<OTHERS>(nest, &tables, rounds),
    };
    reached.add("run", name, ours.0[0] / theirs.0[0]);
    reached.add("delivery", name, ours.0[2] / theirs.0[2]);
}

/// Prints the times of the proved entry and of the plain machine for N loops, and answers them.
fn timed<const N: usize>(nest: &Nest, tables: &Tables, rounds: usize) -> [Times; 2] {
    let machine: Machine<N> = Machine::new(nest).expect("an accepted nest");
    let schedule = round_robin(&machine, tables, 1 << nest.cube);
    schedule.compare(nest, &machine, tables);
    let [mut ours, mut theirs] = [Times([f64::INFINITY; 4]), Times([f64::INFINITY; 4])];
    for _ in 0..rounds {
        ours = ours.least(&schedule, tables, |request, state| {
            proved::make_move(nest, request, tables, state)
        });
        theirs = theirs
            .least(&schedule, tables, |request, state| machine.make_move(request, tables, state));
    }
    print(&schedule, &ours, &theirs);
    [ours, theirs]
}

fn print(schedule: &Schedule, ours: &Times, theirs: &Times) {
    let [allowed, refused, deliveries] = schedule.counts;
    println!("{allowed} computes and {deliveries} deliveries allowed, {refused} computes refused");
    println!("least times; the plain machine checks the nest once, the entry in every move\n");
    println!("{:<26} {:>12} {:>12} {:>7}", "", "entry", "plain", "ratio");
    let (Times(a), Times(b)) = (ours, theirs);
    println!(
        "{:<26} {:>12.1} {:>12.1} {:>7.2}",
        "whole run, microseconds",
        a[0] / 1e3,
        b[0] / 1e3,
        a[0] / b[0]
    );
    let moves = (allowed + refused + deliveries) as f64;
    println!(
        "{:<26} {:>12.1} {:>12.1} {:>7.2}",
        "a move, nanoseconds",
        a[0] / moves,
        b[0] / moves,
        a[0] / b[0]
    );
    for (k, what) in ["a compute", "a delivery", "a move refused for place"].iter().enumerate() {
        println!("{what:<26} {:>12.1} {:>12.1} {:>7.2}", a[k + 1], b[k + 1], a[k + 1] / b[k + 1]);
    }
}
