//! The goals: how long the proved entries may take, as multiples of the plain ones' times in the
//! same run.

/// What is timed, on which nest, and the greatest ratio that is accepted.
const GOALS: [(&str, &str, f64); 14] = [
    ("fill", "L1, 64 x 64", 0.9),
    ("fill", "L2, 16 x 16 x 16", 0.9),
    ("fill", "512 x 8 x 1", 1.2),
    ("fill", "L1, 16 x 16", 1.2),
    ("fill", "L2, 4 x 8 x 8", 1.2),
    ("plan", "L1, 64 x 64", 1.0),
    ("plan", "L2, 16 x 16 x 16", 1.0),
    ("plan", "L2, 8 dependences", 1.0),
    ("plan", "512 x 8 x 1", 1.2),
    ("fill", "four loops, 8 x 8 x 8 x 8", 0.9),
    ("plan", "four loops, 8 x 8 x 8 x 8", 1.0),
    ("plan", "four loops, 8 dependences", 1.0),
    ("run", "L1, 64 x 64", 1.3),
    ("delivery", "L1, 64 x 64", 2.0),
];

/// The ratios that were measured, by what was timed and on which nest.
pub struct Reached(Vec<(String, String, f64)>);

impl Reached {
    pub fn new() -> Reached {
        Reached(Vec::new())
    }

    /// One more ratio; those of `plan` are to the faster of the two plain planners.
    pub fn add(&mut self, what: &str, nest: &str, ratio: f64) {
        self.0.push((what.to_string(), nest.to_string(), ratio));
    }

    /// The ratio of what a goal speaks of.
    fn ratio(&self, what: &str, nest: &str) -> f64 {
        let found = self.0.iter().find(|(a, b, _)| a == what && b == nest);
        found.expect("every goal is timed").2
    }

    /// Prints each goal beside what was reached; answers how many are missed.
    pub fn report(&self) -> usize {
        println!("\nratios to the plain planner and machine, and the goals\n");
        println!("{:<10} {:<26} {:>7} {:>7}", "", "nest", "ratio", "goal");
        let mut missed = 0;
        for (what, nest, goal) in GOALS {
            let ratio = self.ratio(what, nest);
            let word = if ratio <= goal { "" } else { " missed" };
            missed += (ratio > goal) as usize;
            println!("{what:<10} {nest:<26} {ratio:>7.2} {goal:>7.1}{word}");
        }
        missed
    }
}
