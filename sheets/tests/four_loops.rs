//! Tests of the generator's nests of four loops (document 02, U11): they come up with every number
//! of chosen vectors, so that a planner that chooses vectors or deals bits wrongly is found out.
//! And a loop of one index that nothing moves along changes no plan.

use std::collections::HashMap;

use second::listing::listing;
use second::nest::{Iterations, LoopNest};
use second::partition::{auxiliary_vectors, Choice, Partition};
use second::plan::Plan;
use second::text;
use sheets::deeper::with_loop;
use sheets::wrong::{chosen_by, dealt_by, Dealing, WRONG_CHOICES, WRONG_DEALINGS};
use sheets::{Case, Random};

const COUNT: u64 = 2200;

fn cases() -> impl Iterator<Item = Case> {
    (0..COUNT).map(|index| sheets::case(1, index))
}

/// The accepted nests of a depth among the cases.
fn nests_of_depth(depth: i64) -> Vec<LoopNest> {
    let nests = cases().filter_map(|case| text::read(&case.text).ok());
    nests.filter(|nest| nest.depth == depth).collect()
}

/// The plans of the nests of a kind.
fn plans_of_kind(kind: &str) -> Vec<Plan> {
    let nest = |case: Case| text::read(&case.text).expect("an accepted nest");
    cases().filter(|case| case.kind == kind).map(|case| Plan::new(&nest(case))).collect()
}

#[test]
fn the_kinds_are_what_they_say() {
    let [most, passed_over, wide, narrow] =
        ["most vectors", "vector passed over", "wide directions", "narrow direction"].map(|kind| {
            let plans = plans_of_kind(&format!("deepest, {kind}"));
            assert!(plans.len() >= 30, "{kind}");
            assert!(plans.iter().all(|plan| plan.partition.beta() == 3), "{kind}");
            plans
        });
    let with_others = most.iter().filter(|plan| plan.partition.multipliers.len() > 3).count();
    assert!(with_others >= 20, "{with_others}");
    for plan in passed_over {
        let [first, second] = plan.partition.auxiliary[..] else { panic!("two vectors") };
        assert!(first + 1 < second, "{:?}", plan.partition.auxiliary);
    }
    for plan in wide {
        assert!(plan.mapping.bits.iter().all(|&bits| bits > 0), "{:?}", plan.mapping.widths);
    }
    for plan in narrow {
        let bits = &plan.mapping.bits;
        assert!(bits[0] > 0 && bits[3] > 0 && bits[1] * bits[2] == 0, "{:?}", plan.mapping.widths);
    }
}

#[test]
fn every_number_of_chosen_vectors_comes_up_at_each_depth() {
    let mut seen: HashMap<(i64, usize), u64> = HashMap::new();
    for nest in LoopNest::DEPTHS.flat_map(nests_of_depth) {
        let beta = Partition::new(&nest, &Iterations::new(&nest)).beta();
        *seen.entry((nest.depth, beta)).or_insert(0) += 1;
    }
    for depth in LoopNest::DEPTHS {
        let counts: Vec<u64> = (0..depth as usize)
            .map(|beta| seen.get(&(depth, beta)).copied().unwrap_or_default())
            .collect();
        assert!(counts.iter().all(|&count| count >= 5), "{depth} {counts:?}");
    }
    let of_depth = |depth| seen.iter().filter(|((n, _), _)| *n == depth).map(|(_, k)| k).sum();
    let counts: [u64; 4] = [1, 2, 3, 4].map(of_depth);
    assert!(counts.iter().all(|&count| count >= COUNT / 25), "{counts:?}");
    assert!(counts[3] >= COUNT / 6, "{counts:?}");
}

#[test]
fn as_many_iterations_as_there_may_be_come_up() {
    let is_even = |nest: &LoopNest| nest.lower.iter().zip(&nest.upper).all(|(l, u)| u - l == 7);
    let full: Vec<LoopNest> = nests_of_depth(4)
        .into_iter()
        .filter(|nest| nest.iteration_count() == LoopNest::MOST_ITERATIONS)
        .collect();
    let even = full.iter().filter(|nest| is_even(nest)).count();
    assert!(even >= 1 && full.len() > even, "{even} of {}", full.len());
}

/// Whether a dealing gives an iteration of the nest another processor.
fn deals_otherwise(nest: &LoopNest, plan: &Plan, dealing: Dealing) -> bool {
    dealt_by(nest, plan, dealing).processors != plan.mapping.processors
}

#[test]
fn bits_that_are_dealt_wrongly_show() {
    let nests = nests_of_depth(4);
    let plans: Vec<(&LoopNest, Plan)> = nests.iter().map(|nest| (nest, Plan::new(nest))).collect();
    assert!(!plans.iter().any(|(nest, plan)| deals_otherwise(nest, plan, |_| ())));
    for (name, dealing) in WRONG_DEALINGS {
        let shown = plans.iter().filter(|(nest, plan)| deals_otherwise(nest, plan, *dealing));
        let shown = shown.count();
        assert!(shown >= 60, "{name}: {shown} of {}", plans.len());
    }
}

/// Whether a choice of auxiliary vectors gives an iteration of the nest another block or another
/// processor.
fn chooses_otherwise(nest: &LoopNest, plan: &Plan, choice: Choice) -> bool {
    let (partition, mapping) = chosen_by(nest, plan, choice);
    partition.blocks != plan.partition.blocks || mapping.processors != plan.mapping.processors
}

#[test]
fn auxiliary_vectors_that_are_chosen_wrongly_show() {
    let mut nests = nests_of_depth(4);
    nests.retain(|nest| nest.iteration_count() <= 700);
    let plans: Vec<(&LoopNest, Plan)> = nests.iter().map(|nest| (nest, Plan::new(nest))).collect();
    assert!(!plans.iter().any(|(nest, plan)| chooses_otherwise(nest, plan, auxiliary_vectors)));
    for (name, choice) in WRONG_CHOICES {
        let shown = plans.iter().filter(|(nest, plan)| chooses_otherwise(nest, plan, *choice));
        let shown = shown.count();
        assert!(shown >= 30, "{name}: {shown} of {}", plans.len());
    }
}

/// One loop in two, two in three, three in four, the new loop outermost and at any other place. The
/// listing has every count, step, block, processor and value.
#[test]
fn a_loop_of_one_index_that_nothing_moves_along_changes_no_plan() {
    let mut random = Random::new(41);
    for depth in 1..*LoopNest::DEPTHS.end() {
        let nests = nests_of_depth(depth);
        assert!(nests.len() >= 100, "{depth}: {}", nests.len());
        for nest in nests {
            let expected = listing(text::write(&nest).as_bytes());
            for place in [0, random.place(nest.lower.len() + 1)] {
                let index = random.pick(&[-1000, -1, 0, 3, 1000]);
                let deeper = with_loop(&nest, place, index);
                assert_eq!((deeper.depth, deeper.refusal()), (depth + 1, None));
                let listed = listing(text::write(&deeper).as_bytes());
                assert!(listed == expected, "{place} of {deeper:?}");
            }
        }
    }
}
