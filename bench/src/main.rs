//! Times the proved planner beside a plain one, in one run, on nests on which both give the same
//! tables. `check` ends with status 1 where a goal is missed.

#[cfg(test)]
mod beside_second;
mod goals;
mod machine;
mod nest;
mod plain;
mod proved;
mod runs;

use std::hint::black_box;
use std::time::Instant;

use goals::Reached;
use nest::{Nest, Tables};
use plain::Lookup;

/// L1 of document 000, of so many iterations a side.
fn l1(side: i64) -> Nest {
    nest::with_extents(&[side, side], &[1, 1], &[&[0, 1], &[1, 1], &[1, 0]], 6)
}

/// L2 of document 000.
fn l2(extents: &[i64; 3]) -> Nest {
    nest::with_extents(extents, &[1, 1, 1], &[&[0, 1, 0], &[1, 0, 0], &[0, 0, 1]], 6)
}

/// L2 with eight dependences.
fn l2_with_eight(extents: &[i64; 3]) -> Nest {
    let units: [&[i64]; 8] = [
        &[0, 1, 0],
        &[1, 0, 0],
        &[0, 0, 1],
        &[1, 1, 0],
        &[1, 0, 1],
        &[0, 1, 1],
        &[1, 1, 1],
        &[1, 1, -1],
    ];
    nest::with_extents(extents, &[1, 1, 1], &units, 6)
}

/// Four loops as L2's three: a dependence of one step in each, by which two auxiliary vectors are
/// chosen.
fn four_loops(extents: &[i64; 4]) -> Nest {
    let units: [&[i64]; 4] = [&[0, 1, 0, 0], &[1, 0, 0, 0], &[0, 0, 1, 0], &[0, 0, 0, 1]];
    nest::with_extents(extents, &[1, 1, 1, 1], &units, 6)
}

/// The same with eight dependences.
fn four_loops_with_eight(extents: &[i64; 4]) -> Nest {
    let dependences: [&[i64]; 8] = [
        &[0, 1, 0, 0],
        &[1, 0, 0, 0],
        &[0, 0, 1, 0],
        &[0, 0, 0, 1],
        &[1, 1, 0, 0],
        &[0, 0, 1, 1],
        &[1, 1, 1, 1],
        &[1, 1, 1, -1],
    ];
    nest::with_extents(extents, &[1, 1, 1, 1], &dependences, 6)
}

/// A nest whose chosen projections span a coarse lattice, so that few iterations share a class: at
/// 16 x 16 x 16 it has 4035 classes.
fn many_classes(extents: &[i64; 3]) -> Nest {
    nest::with_extents(extents, &[16, 15, 13], &[&[16, -15, 0], &[13, 0, -15]], 6)
}

/// A nest whose values of P·j are 16 apart: of the 16033 numbers from the least to the greatest 1003
/// are some iteration's.
fn far_apart() -> Nest {
    nest::with_extents(&[4, 1000], &[-16, 16], &[&[0, 1], &[1, 2]], 6)
}

/// Pseudo-random numbers.
struct Random(u64);

impl Random {
    fn between(&mut self, low: i64, high: i64) -> i64 {
        self.0 ^= self.0 << 13;
        self.0 ^= self.0 >> 7;
        self.0 ^= self.0 << 17;
        low + (self.0 % (high - low + 1) as u64) as i64
    }
}

/// A nest that is often accepted, with a boundary value for each dependence. (Those that are timed
/// have one for all, as before document 02's U1.)
fn random_nest(random: &mut Random) -> Nest {
    let depth = random.between(1, Nest::MAX_DEPTH as i64) as usize;
    let longest = [500, 40, 12, 7][depth - 1];
    let extents: Vec<i64> = (0..depth).map(|_| random.between(1, longest)).collect();
    let span = [1, 2, 4, 16][random.between(0, 3) as usize];
    let time: Vec<i64> = (0..depth).map(|_| random.between(-span, span)).collect();
    let mut dependences: Vec<Vec<i64>> = Vec::new();
    for _ in 0..random.between(1, 8) {
        let d: Vec<i64> = (0..depth).map(|_| random.between(-span, span)).collect();
        let ahead = d.iter().zip(&time).map(|(a, b)| a * b).sum::<i64>() > 0;
        if ahead && d.iter().find(|x| **x != 0) > Some(&0) && !dependences.contains(&d) {
            dependences.push(d);
        }
    }
    let lists: Vec<&[i64]> = dependences.iter().map(|d| d.as_slice()).collect();
    let mut nest = nest::with_extents(&extents, &time, &lists, random.between(0, 6));
    for k in 0..depth {
        let by = random.between(-100, 100);
        nest.lower[k] += by;
        nest.upper[k] += by;
    }
    for value in &mut nest.boundaries[1..] {
        *value = random.between(0, 99);
    }
    nest
}

/// Both planners on one nest, with tables of so many entries: whether all answers are equal, and
/// whether it is accepted.
fn agree(nest: &Nest, entries: [usize; 4]) -> (bool, bool) {
    let mut ours = Tables::new(entries);
    let answer = proved::plan(nest, &mut ours);
    let mut same = true;
    for lookup in [Lookup::Search, Lookup::Hash] {
        let mut theirs = Tables::new(entries);
        same &= plain::plan(nest, &mut theirs, lookup) == answer && theirs == ours;
    }
    let mut ours = vec![77; entries[3]];
    let mut theirs = ours.clone();
    same &= proved::fill(nest, &mut ours) == plain::fill(nest, &mut theirs) && ours == theirs;
    let (mut ours, mut theirs) = (77, 77);
    same &= proved::most_receivers(nest, &mut ours) == plain::most_receivers(nest, &mut theirs);
    (same && ours == theirs, answer == 0)
}

/// Compares the planners on nests of every shape; answers how many there were and how many of them
/// were accepted.
fn compare(nests: usize) -> (usize, usize) {
    let mut random = Random(0x9E37_79B9_7F4A_7C15);
    let mut accepted = 0;
    for _ in 0..nests {
        let nest = random_nest(&mut random);
        let mut entries = [4100; 4];
        if random.between(0, 3) == 0 {
            entries[random.between(0, 3) as usize] = random.between(0, 200) as usize;
        }
        let (same, good) = agree(&nest, entries);
        assert!(same, "the planners differ on {nest:?}");
        accepted += good as usize;
    }
    (nests, accepted)
}

/// The least time of each of some functions, in nanoseconds, called in turn for so many rounds.
fn least_times(rounds: usize, functions: &mut [&mut dyn FnMut()]) -> Vec<f64> {
    let mut least = vec![f64::INFINITY; functions.len()];
    for _ in 0..rounds {
        for (function, least) in functions.iter_mut().zip(&mut least) {
            let start = Instant::now();
            function();
            *least = least.min(start.elapsed().as_nanos() as f64);
        }
    }
    least
}

/// An answer that the compiler may not throw away.
fn keep(answer: u8) {
    black_box(answer);
}

/// Times on one nest: proved plan, plain plan by search, plain plan by hash, proved fill, plain
/// fill.
fn times(nest: &Nest, rounds: usize) -> (usize, Vec<f64>) {
    assert_eq!(agree(nest, [4100; 4]), (true, true), "the planners differ on {nest:?}");
    let mut tables: Vec<Tables> = (0..5).map(|_| Tables::new([4096; 4])).collect();
    let [a, b, c, d, e] = &mut tables[..] else { unreachable!() };
    let least = least_times(
        rounds,
        &mut [
            &mut || keep(proved::plan(black_box(nest), a)),
            &mut || keep(plain::plan(black_box(nest), b, Lookup::Search)),
            &mut || keep(plain::plan(black_box(nest), c, Lookup::Hash)),
            &mut || keep(proved::fill(black_box(nest), &mut d.values)),
            &mut || keep(plain::fill(black_box(nest), &mut e.values)),
        ],
    );
    (tables[0].counts[0], least)
}

/// The nests that are timed, with how often each is.
fn nests(scale: usize) -> Vec<(&'static str, Nest, usize)> {
    vec![
        ("L1, 64 x 64", l1(64), 40 * scale),
        ("L2, 16 x 16 x 16", l2(&[16, 16, 16]), 40 * scale),
        ("L2, 8 dependences", l2_with_eight(&[16, 16, 16]), 20 * scale),
        ("512 x 8 x 1", l2(&[512, 8, 1]), 20 * scale),
        ("L1, 16 x 16", l1(16), 200 * scale),
        ("L2, 4 x 8 x 8", l2(&[4, 8, 8]), 200 * scale),
        ("4035 classes, 16 x 16 x 16", many_classes(&[16, 16, 16]), 2 * scale),
        ("4 x 1000, P·j 16 apart", far_apart(), 40 * scale),
        ("four loops, 8 x 8 x 8 x 8", four_loops(&[8, 8, 8, 8]), 40 * scale),
        ("four loops, 8 dependences", four_loops_with_eight(&[8, 8, 8, 8]), 20 * scale),
    ]
}

/// The times of `plan` and `fill` beside the plain ones, a line a nest.
fn report_nests(scale: usize, reached: &mut Reached) {
    println!(
        "least times in microseconds; 'search' and 'hash': how the plain planner finds classes\n"
    );
    println!(
        "{:<26} {:>9} {:>9} {:>9} {:>7} {:>7} {:>9} {:>9} {:>7}",
        "nest", "plan", "search", "hash", "ratio", "ratio", "fill", "plain", "ratio"
    );
    for (name, nest, rounds) in &nests(scale) {
        let (_, t) = times(nest, *rounds);
        println!(
            "{name:<26} {:>9.1} {:>9.1} {:>9.1} {:>7.2} {:>7.2} {:>9.1} {:>9.1} {:>7.2}",
            t[0] / 1e3,
            t[1] / 1e3,
            t[2] / 1e3,
            t[0] / t[1],
            t[0] / t[2],
            t[3] / 1e3,
            t[4] / 1e3,
            t[3] / t[4]
        );
        reached.add("plan", name, t[0] / t[1].min(t[2]));
        reached.add("fill", name, t[3] / t[4]);
    }
}

/// How the time of an iteration changes with their number.
fn report_sizes(scale: usize) {
    println!("\nnanoseconds an iteration\n");
    println!(
        "{:<26} {:>10} {:>9} {:>9} {:>9} {:>9} {:>9}",
        "nest", "iterations", "plan", "search", "hash", "fill", "plain"
    );
    let sizes = [
        ("L1", [l1(16), l1(32), l1(64)]),
        ("L2", [l2(&[4, 8, 8]), l2(&[8, 8, 16]), l2(&[16, 16, 16])]),
        (
            "many classes",
            [many_classes(&[4, 8, 8]), many_classes(&[8, 8, 16]), many_classes(&[16, 16, 16])],
        ),
        (
            "four loops",
            [four_loops(&[4, 4, 4, 4]), four_loops(&[4, 4, 8, 8]), four_loops(&[8, 8, 8, 8])],
        ),
    ];
    for (name, nests) in &sizes {
        for nest in nests {
            let (n, t) = times(nest, if *name == "many classes" { 2 } else { 20 } * scale);
            let each: Vec<f64> = t.iter().map(|x| x / n as f64).collect();
            println!(
                "{name:<26} {n:>10} {:>9.1} {:>9.1} {:>9.1} {:>9.1} {:>9.1}",
                each[0], each[1], each[2], each[3], each[4]
            );
        }
    }
}

/// How often a call that takes less than a clock can tell is made between two readings.
const CALLS: usize = 1000;

/// The time of `most_receivers`, which looks at no iteration, beside the plain one's.
fn report_bounds(scale: usize) {
    println!("\nleast times of most_receivers in nanoseconds, of {CALLS} calls each\n");
    println!("{:<26} {:>9} {:>9} {:>7}", "nest", "proved", "plain", "ratio");
    for (name, nest, _) in &nests(scale) {
        let (mut a, mut b) = (0, 0);
        let t = least_times(
            20 * scale,
            &mut [
                &mut || {
                    (0..CALLS).for_each(|_| keep(proved::most_receivers(black_box(nest), &mut a)))
                },
                &mut || {
                    (0..CALLS).for_each(|_| keep(plain::most_receivers(black_box(nest), &mut b)))
                },
            ],
        );
        let [ours, theirs] = [t[0], t[1]].map(|time| time / CALLS as f64);
        println!("{name:<26} {ours:>9.0} {theirs:>9.0} {:>7.2}", ours / theirs);
    }
}

/// The nests that are run move by move.
const RUN: [&str; 3] = ["L1, 64 x 64", "four loops, 8 x 8 x 8 x 8", "four loops, 8 dependences"];

/// The times of complete runs beside the plain machine's.
fn report_runs(scale: usize, reached: &mut Reached) {
    let nests = nests(scale);
    for name in RUN {
        let (_, nest, _) = nests.iter().find(|nest| nest.0 == name).expect("a nest that is timed");
        runs::report(name, nest, 2 * scale, reached);
    }
}

fn main() {
    let word = std::env::args().nth(1);
    let scale = if word.as_deref() == Some("quick") { 1 } else { 10 };
    let (nests, accepted) = compare(1000);
    println!("equal tables and counts on {nests} nests, {accepted} of them accepted\n");
    let mut reached = Reached::new();
    report_nests(scale, &mut reached);
    report_sizes(scale);
    report_bounds(scale);
    report_runs(scale, &mut reached);
    let missed = reached.report();
    if word.as_deref() == Some("check") && missed > 0 {
        std::process::exit(1);
    }
}
