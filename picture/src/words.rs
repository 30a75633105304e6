//! What the texts of the picture say.

use crate::plan::{Link, Plan};

/// The height of lines of text, and how wide a character of theirs may be in any usual font.
pub const SIZE: u32 = 13;
const CHARACTER: f64 = 7.0;

/// The room that the longest of some lines needs.
pub fn width(lines: &[String]) -> f64 {
    let longest = lines.iter().map(|line| line.chars().count()).max().unwrap_or(0);
    longest as f64 * CHARACTER
}

/// "1 block", "4 blocks".
pub fn counted(number: usize, name: &str) -> String {
    format!("{number} {name}{}", if number == 1 { "" } else { "s" })
}

/// "(0, 1)"
pub fn vector(components: &[i64]) -> String {
    let components: Vec<String> = components.iter().map(i64::to_string).collect();
    format!("({})", components.join(", "))
}

/// What the nest is: its loops, time vector, cube and dependences.
pub fn nest(plan: &Plan) -> [String; 2] {
    let nest = &plan.nest;
    let limits = nest.lower.iter().zip(&nest.upper).enumerate();
    let loops: Vec<String> =
        limits.map(|(k, (lower, upper))| format!("i{} = {lower}..{upper}", k + 1)).collect();
    let dependences: Vec<String> = nest.dependences.iter().map(|d| vector(d)).collect();
    [
        format!(
            "depth {}: {}; time vector {}; cube of dimension {}",
            nest.depth,
            loops.join(", "),
            vector(&nest.time_vector),
            nest.cube_dimension
        ),
        format!("dependences {}", dependences.join(", ")),
    ]
}

/// The five counts of the plan.
pub fn counts(plan: &Plan) -> String {
    let names = ["iteration", "step", "block", "processor", "message"];
    let counts: Vec<String> =
        plan.counts.iter().zip(names).map(|(&count, name)| counted(count as usize, name)).collect();
    counts.join(", ")
}

/// A block's size and processor.
pub fn block(plan: &Plan, block: usize, ranks: &[usize]) -> String {
    let size = counted(ranks.len(), "iteration");
    format!("block {block}: {size}, processor {}", plan.entries[ranks[0]].processor)
}

/// All that the listing says of an iteration.
pub fn iteration(plan: &Plan, rank: usize) -> String {
    let entry = plan.entries[rank];
    format!(
        "rank {rank}, index point {}, step {}, block {}, processor {}, value {}",
        vector(&plan.iterations.points[rank]),
        entry.step,
        entry.block,
        entry.processor,
        entry.value
    )
}

/// A message, by the index points at its ends and its dependence.
pub fn message(plan: &Plan, link: &Link) -> String {
    let points = &plan.iterations.points;
    format!(
        "message from {} to {} along {}",
        vector(&points[link.source]),
        vector(&points[link.target]),
        vector(&plan.nest.dependences[link.dependence])
    )
}
