//! What tables and state hold before the first move.

use second::nest::LoopNest;
use second::plan::Plan;
use sheets::Random;

use crate::buffers::Contents;
use crate::entry::{Entry, Numbers, Planned};

/// The most entries behind the last iteration's.
const MOST_BEHIND: i64 = 5;

/// A list of so many entries made one by one.
fn made<T>(count: usize, mut make: impl FnMut() -> T) -> Vec<T> {
    (0..count).map(|_| make()).collect()
}

/// Puts entries behind the last iteration's: such as would be taken for an iteration's.
fn put_behind<T: Copy>(random: &mut Random, list: &mut Vec<T>, likely: &[T]) {
    for _ in 0..random.between(0, MOST_BEHIND) {
        list.push(random.pick(likely));
    }
}

/// Entries behind the last one of each buffer.
fn put_behind_all(random: &mut Random, contents: &mut Contents, nest: &LoopNest) {
    let last_processor = (nest.processor_count() - 1) as u8;
    put_behind(random, &mut contents.steps, &[0, 0, 1, 77, u32::MAX]);
    put_behind(random, &mut contents.processors, &[0, 0, last_processor, 77, 255]);
    put_behind(random, &mut contents.values, &[0, 1, 77, 65535]);
    put_behind(random, &mut contents.done, &[0, 0, 0, 1, 7, 255]);
    put_behind(random, &mut contents.delivered, &[0, 0, 1, 77, 255]);
}

/// A fresh state on tables that the entry itself plans. The difference, if those are not the plan.
pub fn fresh(
    random: &mut Random,
    entry: &dyn Entry,
    numbers: &Numbers,
    nest: &LoopNest,
    plan: &Plan,
) -> Result<Contents, String> {
    let count = plan.iterations.count();
    let mut contents = Contents {
        steps: vec![99; count],
        processors: vec![99; count],
        values: made(count, || random.bits() as u16),
        done: vec![0; count],
        delivered: vec![0; count],
    };
    put_behind_all(random, &mut contents, nest);
    plan_into(entry, numbers, plan, &mut contents)?;
    Ok(contents)
}

/// Lets the entry plan the nest into the tables of steps and processors.
fn plan_into(
    entry: &dyn Entry,
    numbers: &Numbers,
    plan: &Plan,
    contents: &mut Contents,
) -> Result<(), String> {
    let count = plan.iterations.count();
    let (before_steps, before_processors) = (contents.steps.clone(), contents.processors.clone());
    let (mut blocks, mut values, mut counts) = (vec![0; count], vec![0; count], [0; 5]);
    let number = entry.plan(
        numbers,
        Planned {
            steps: &mut contents.steps,
            blocks: &mut blocks,
            processors: &mut contents.processors,
            values: &mut values,
            counts: &mut counts,
        },
    );
    let steps = contents.steps[..count].iter().map(|&step| i64::from(step));
    let processors = contents.processors[..count].iter().map(|&processor| usize::from(processor));
    let blocks = blocks.iter().map(|&block| usize::from(block));
    let same = [
        ("refusal", number == 0),
        ("steps", steps.eq(plan.partition.steps.iter().copied())),
        ("blocks", blocks.eq(plan.partition.blocks.iter().copied())),
        ("processors", processors.eq(plan.mapping.processors.iter().copied())),
        ("values", values.iter().map(|&value| i64::from(value)).eq(plan.values.iter().copied())),
        ("messages", counts[4] == plan.mapping.messages.len()),
        ("steps behind", contents.steps[count..] == before_steps[count..]),
        ("processors behind", contents.processors[count..] == before_processors[count..]),
    ];
    match same.iter().find(|(_, same)| !same) {
        None => Ok(()),
        Some((what, _)) => Err(format!("the entry's own plan differs: {what}")),
    }
}

/// Tables and state of any content.
pub fn any(random: &mut Random, nest: &LoopNest, plan: &Plan) -> Contents {
    let mut contents = Contents {
        steps: any_steps(random, plan),
        processors: any_processors(random, nest, plan),
        values: any_values(random, plan.iterations.count()),
        done: any_done(random, plan.iterations.count()),
        delivered: any_delivered(random, nest, plan.iterations.count()),
    };
    put_behind_all(random, &mut contents, nest);
    contents
}

fn any_steps(random: &mut Random, plan: &Plan) -> Vec<u32> {
    let count = plan.iterations.count();
    let planned = || plan.partition.steps.iter().map(|&step| step as u32);
    match random.between(0, 6) {
        0 => planned().collect(),
        1 => planned().rev().collect(),
        2 => planned().map(|step| step / 3).collect(),
        3 => vec![random.pick(&[0, 7, u32::MAX]); count],
        4 => made(count, || random.between(0, 2) as u32),
        5 => made(count, || random.bits() as u32),
        _ => made(count, || random.pick(&[0, 1, 65535, 65536, 1 << 31, u32::MAX - 1, u32::MAX])),
    }
}

fn any_processors(random: &mut Random, nest: &LoopNest, plan: &Plan) -> Vec<u8> {
    let count = plan.iterations.count();
    let end = nest.processor_count();
    let planned = plan.mapping.processors.iter().map(|&processor| processor as u8);
    match random.between(0, 5) {
        0 => planned.collect(),
        1 => planned
            .map(|processor| if random.once_in(5) { random.byte() } else { processor })
            .collect(),
        2 => vec![random.pick(&[0, (end - 1) as u8]); count],
        3 => made(count, || random.place(end) as u8),
        4 => made(count, || random.pick(&[0, (end - 1) as u8, end as u8, 200, 255])),
        _ => made(count, || random.place(2) as u8),
    }
}

fn any_values(random: &mut Random, count: usize) -> Vec<u16> {
    match random.between(0, 3) {
        0 => vec![65535; count],
        _ => made(count, || random.bits() as u16),
    }
}

fn any_done(random: &mut Random, count: usize) -> Vec<u8> {
    match random.between(0, 5) {
        0 => vec![0; count],
        1 => vec![random.pick(&[1, 7, 255]); count],
        2 => made(count, || if random.once_in(10) { 0 } else { random.pick(&[1, 2, 7, 255]) }),
        3 => made(count, || random.place(2) as u8),
        4 => made(count, || random.byte()),
        _ => made(count, || random.pick(&[0, 0, 0, 1, 2, 7, 128, 255])),
    }
}

fn any_delivered(random: &mut Random, nest: &LoopNest, count: usize) -> Vec<u8> {
    let own_bits = (1_u32 << nest.dependences.len()) - 1;
    match random.between(0, 4) {
        0 => vec![0; count],
        1 => vec![255; count],
        2 => vec![!own_bits as u8; count],
        3 => made(count, || random.byte() & own_bits as u8),
        _ => made(count, || random.byte()),
    }
}

/// Makes one buffer too short, by one entry or more; now and then another one too.
pub fn shorten(random: &mut Random, contents: &mut Contents, count: usize, place: usize) {
    let length = if random.once_in(4) { random.place(count) } else { count - 1 };
    match place {
        0 => contents.steps.truncate(length),
        1 => contents.processors.truncate(length),
        2 => contents.values.truncate(length),
        3 => contents.done.truncate(length),
        _ => contents.delivered.truncate(length),
    }
    if random.once_in(4) {
        let other = random.place(5);
        shorten(random, contents, count, other);
    }
}

/// Tables and state for a nest that is refused: buffers of any length, none at all included.
pub fn for_refused(random: &mut Random) -> Contents {
    let longest = random.pick(&[0, 0, 3, 60, 5000]);
    let mut length = || random.between(0, longest) as usize;
    let lengths = [length(), length(), length(), length(), length()];
    Contents {
        steps: made(lengths[0], || random.between(0, 9) as u32),
        processors: made(lengths[1], || random.place(4) as u8),
        values: made(lengths[2], || random.bits() as u16),
        done: made(lengths[3], || random.pick(&[0, 0, 1, 7])),
        delivered: made(lengths[4], || random.byte()),
    }
}
