//! Reads the text of a loop nest from standard input, plans it, and runs the plan move by move.
//! Prints each iteration's step, block and processor, and what the run did.
//!
//!     cargo run --release --offline --manifest-path rowlock/Cargo.toml --example plan < sheet.txt

use std::io::{self, Read};
use std::process::ExitCode;

use rowlock::{Counts, Made, Move, Nest, Refusal, MAX_ITERATIONS as MAX};

fn main() -> ExitCode {
    let mut text = Vec::new();
    if let Err(error) = io::stdin().read_to_end(&mut text) {
        eprintln!("{error}");
        return ExitCode::FAILURE;
    }
    if let Err(refusal) = plan_and_run(&text) {
        println!("refused: {}", refusal.number());
        return ExitCode::FAILURE;
    }
    ExitCode::SUCCESS
}

fn plan_and_run(text: &[u8]) -> Result<(), Refusal> {
    let nest = rowlock::read(text)?;
    let (mut steps, mut blocks, mut processors, mut values) =
        ([0; MAX], [0; MAX], [0; MAX], [0; MAX]);
    let counts = rowlock::plan(&nest, &mut steps, &mut blocks, &mut processors, &mut values)?;
    print_counts(&counts);
    for k in 0..counts.iterations {
        println!(
            "iteration {k}: step {}, block {}, processor {}",
            steps[k], blocks[k], processors[k]
        );
    }
    let (computed, made) = run(&nest, counts.iterations, &steps, &processors);
    let computes = made.iter().filter(|made| matches!(made, Made::Computed { .. })).count();
    let same = computed == values[..counts.iterations];
    let table = if same { "the table of the sequential loop" } else { "another table" };
    println!("{computes} computed, {} delivered: {table}", made.len() - computes);
    Ok(())
}

fn print_counts(counts: &Counts) {
    let Counts { iterations, steps, blocks, processors, messages } = counts;
    println!("{iterations} iterations, {steps} steps, {blocks} blocks, {processors} processors, {messages} messages");
}

/// A compute on every processor, and a delivery for every iteration along every dependence.
fn all_moves(nest: &Nest, iterations: usize) -> Vec<Move> {
    let count = nest.count as usize;
    let computes = (0..1 << nest.cube).map(|processor| Move::Compute { processor });
    let deliveries =
        (0..iterations * count).map(|k| Move::Deliver { rank: k / count, dependence: k % count });
    computes.chain(deliveries).collect()
}

/// Asks for all moves from a fresh state, round by round, until none is allowed; answers the table
/// and what was made.
fn run(nest: &Nest, iterations: usize, steps: &[u32], processors: &[u8]) -> (Vec<u16>, Vec<Made>) {
    let (mut values, mut done, mut delivered) =
        (vec![0; iterations], vec![0; iterations], vec![0; iterations]);
    let mut ask = |request: &Move| {
        rowlock::make_move(
            nest,
            *request,
            steps,
            processors,
            &mut values,
            &mut done,
            &mut delivered,
        )
        .ok()
    };
    let moves = all_moves(nest, iterations);
    let mut made = Vec::new();
    loop {
        let before = made.len();
        made.extend(moves.iter().filter_map(&mut ask));
        if made.len() == before {
            return (values, made);
        }
    }
}
