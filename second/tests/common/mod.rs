//! What the tests share: the nest that document 01's examples start from, its plan, its refusal,
//! and the sheets in examples/.
#![allow(dead_code)]

use std::fs;

use second::listing::listing;
use second::nest::LoopNest;
use second::plan::Plan;
use second::refusal::Number;
use second::text;

/// The folder of the sheets.
pub const EXAMPLES: &str = concat!(env!("CARGO_MANIFEST_DIR"), "/../examples");

/// The nest that an example starts from: it supplies whatever the example leaves unsaid (document
/// 01, "Mixes to try").
pub fn silent_nest(depth: usize) -> LoopNest {
    let mut nest = LoopNest {
        depth: depth as i64,
        dependence_count: 0,
        cube_dimension: 0,
        lower: vec![0; depth],
        upper: vec![3; depth],
        time_vector: vec![1; depth],
        dependences: Vec::new(),
        boundary_values: Vec::new(),
        weights: Vec::new(),
    };
    let mut innermost = vec![0; depth];
    innermost[depth - 1] = 1;
    set_dependences(&mut nest, &[&innermost]);
    nest
}

pub fn set_dependences(nest: &mut LoopNest, dependences: &[&[i64]]) {
    nest.dependence_count = dependences.len() as i64;
    nest.dependences = dependences.iter().map(|dependence| dependence.to_vec()).collect();
    nest.boundary_values = vec![1; dependences.len()];
    nest.weights = vec![1; dependences.len()];
}

/// The plan of a nest that must be accepted, as numbers and as text.
pub fn plan(nest: &LoopNest) -> Plan {
    assert_eq!(nest.refusal(), None);
    assert_eq!(text::read(text::write(nest).as_bytes()).as_ref(), Ok(nest));
    Plan::new(nest)
}

/// The refusal of a nest, the same as numbers and as text.
pub fn refusal(nest: &LoopNest) -> Option<Number> {
    let as_text = text::write(nest);
    assert_eq!(text::read(as_text.as_bytes()).err(), nest.refusal());
    if let Some(number) = nest.refusal() {
        assert_eq!(listing(as_text.as_bytes()), format!("{number:6}\n"));
    }
    nest.refusal()
}

/// A nest with some of its parts changed.
pub fn changed(mut nest: LoopNest, change: impl FnOnce(&mut LoopNest)) -> LoopNest {
    change(&mut nest);
    nest
}

/// A sheet in examples/.
pub fn sheet(name: &str) -> String {
    fs::read_to_string(format!("{EXAMPLES}/{name}.txt")).unwrap()
}

/// The listing of a sheet in examples/, line by line, as numbers.
pub fn listed(name: &str) -> Vec<Vec<i64>> {
    let listing = listing(sheet(name).as_bytes());
    let number = |field: &str| field.parse().unwrap();
    listing.lines().map(|line| line.split_whitespace().map(number).collect()).collect()
}
