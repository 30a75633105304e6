//! `plan`, `fill` and `list`, compared with the second planner.

mod common;

use common::*;
use rowlock::{exported, Counts, Nest, Refusal, MAX_ITERATIONS, MAX_LISTING};
use second::listing::listing;
use second::nest::LoopNest;
use second::plan::Plan;
use second::text;
use sheets::boundary::are_equal;
use sheets::gaps::{corners, time_count};
use sheets::Random;
use trial::nests;

/// Four tables and five counts.
#[derive(Clone, Debug, PartialEq)]
struct Tables {
    steps: Vec<u32>,
    blocks: Vec<u16>,
    processors: Vec<u8>,
    values: Vec<u16>,
    counts: [usize; 5],
}

impl Tables {
    /// Tables of so many entries, with something in each.
    fn new(entries: [usize; 4]) -> Tables {
        Tables {
            steps: vec![77; entries[0]],
            blocks: vec![77; entries[1]],
            processors: vec![77; entries[2]],
            values: vec![77; entries[3]],
            counts: [77; 5],
        }
    }

    /// These tables after a plan by the second planner.
    fn planned(&self, plan: &Plan) -> Tables {
        let steps: Vec<u32> = plan.partition.steps.iter().map(|&step| step as u32).collect();
        let blocks: Vec<u16> = plan.partition.blocks.iter().map(|&block| block as u16).collect();
        let processors: Vec<u8> =
            plan.mapping.processors.iter().map(|&processor| processor as u8).collect();
        let values: Vec<u16> = plan.values.iter().map(|&value| value as u16).collect();
        Tables {
            steps: over(&steps, &self.steps),
            blocks: over(&blocks, &self.blocks),
            processors: over(&processors, &self.processors),
            values: over(&values, &self.values),
            counts: [
                plan.iterations.count(),
                plan.partition.step_count as usize,
                plan.partition.block_count(),
                plan.mapping.used_processor_count(),
                plan.mapping.messages.len(),
            ],
        }
    }

    /// These tables after a plan by the library, and its number.
    fn after_plan(&self, nest: &Nest) -> (u8, Tables) {
        let mut counts = self.counts;
        let ((((number, values), processors), blocks), steps) = after(&self.steps, |steps| {
            after(&self.blocks, |blocks| {
                after(&self.processors, |processors| {
                    after(&self.values, |values| {
                        exported::plan(nest, steps, blocks, processors, values, &mut counts)
                    })
                })
            })
        });
        (number, Tables { steps, blocks, processors, values, counts })
    }
}

/// Stops unless the steps of all iterations are 0, 1, .. up to the last one that is counted, and
/// each is the step of some iteration.
fn assert_no_empty_step(tables: &Tables) {
    let [iterations, count, ..] = tables.counts;
    let mut steps = tables.steps[..iterations].to_vec();
    steps.sort();
    steps.dedup();
    assert!(steps.into_iter().eq(0..count as u32), "{tables:?}");
}

/// Plans a nest on tables of so many entries and compares with what must be answered and left.
fn compare_planning(nest: &Nest, entries: [usize; 4], expected: Result<&Plan, u8>) {
    let before = Tables::new(entries);
    let mut other = before.clone();
    let result = rowlock::plan(
        nest,
        &mut other.steps,
        &mut other.blocks,
        &mut other.processors,
        &mut other.values,
    );
    let (number, tables) = before.after_plan(nest);
    other.counts = tables.counts;
    assert_eq!(tables, other);
    match expected {
        Ok(plan) => {
            let [iterations, steps, blocks, processors, messages] = tables.counts;
            assert_eq!((number, &tables), (0, &before.planned(plan)), "{nest:?}");
            assert_no_empty_step(&tables);
            assert_eq!(result, Ok(Counts { iterations, steps, blocks, processors, messages }));
        }
        Err(refusal) => {
            assert_eq!(
                (number, tables),
                (refusal, Tables { counts: [0; 5], ..before }),
                "{nest:?}"
            );
            assert_eq!(result.map_err(Refusal::number), Err(refusal));
        }
    }
}

/// Fills a table of so many entries and compares with what must be answered and left.
fn compare_filling(nest: &Nest, entries: usize, expected: Result<&Plan, u8>) {
    let before = vec![77; entries];
    let (result, values) = after(&before, |values| rowlock::fill(nest, values));
    let (number, same) = after(&before, |values| exported::fill(nest, values));
    assert_eq!((result.err().map_or(0, Refusal::number), &values), (number, &same));
    match expected {
        Ok(plan) => {
            let list: Vec<u16> = plan.values.iter().map(|&value| value as u16).collect();
            assert_eq!((number, values), (0, over(&list, &before)), "{nest:?}");
        }
        Err(refusal) => assert_eq!((number, values), (refusal, before), "{nest:?}"),
    }
}

/// An accepted nest on tables of every length around the number of its iterations. Answers whether
/// it has fewer steps than there are whole numbers from its earliest time to its latest.
fn compare_accepted(random: &mut Random, nest: &LoopNest) -> bool {
    let plan = Plan::new(nest);
    let (n, lent) = (plan.iterations.count(), lent(random, nest));
    for more in [0, 1, 9] {
        compare_planning(&lent, [n + more; 4], Ok(&plan));
        compare_filling(&lent, n + more, Ok(&plan));
    }
    for table in 0..4 {
        for entries in [0, n / 2, n - 1] {
            let mut lengths = [n, n + 1, n, n + 2];
            lengths[table] = entries;
            compare_planning(&lent, lengths, Err(14));
            compare_filling(&lent, entries, Err(14));
        }
    }
    plan.partition.step_count < time_count(nest)
}

#[test]
fn accepted_nests_are_planned_where_there_is_room() {
    let mut random = Random::new(21);
    let mut with_gaps = 0;
    for nest in accepted(6, 150) {
        with_gaps += u64::from(compare_accepted(&mut random, &nest));
    }
    assert!(with_gaps >= 50, "too few to see steps that nobody works in: {with_gaps}");
    for depth in nests::full_depths() {
        let full = nests::full(&mut random, depth);
        compare_accepted(&mut random, &full);
    }
}

/// The nest of document 01's listing with the boundary values 1 and 10, whatever stands behind them.
/// All but the values is as in the document.
#[test]
fn a_boundary_value_for_each_dependence() {
    let nest = rowlock::read(P2_WITH_TWO).expect("an accepted nest");
    for junk in [[0, 0], [7, 7], [65536, 256], [i64::MIN, i64::MAX]] {
        let (number, tables) = Tables::new([7; 4]).after_plan(&with_junk_behind(&nest, junk));
        let expected = Tables {
            steps: vec![0, 1, 2, 1, 2, 3, 77],
            blocks: vec![0, 0, 1, 2, 0, 0, 77],
            processors: vec![0, 0, 1, 0, 0, 0, 77],
            values: over(&VALUES_WITH_TWO, &[77; 7]),
            counts: [6, 4, 3, 2, 2],
        };
        assert_eq!((number, tables), (0, expected));
        let mut values = [77; 7];
        assert_eq!(rowlock::fill(&with_junk_behind(&nest, junk), &mut values), Ok(()));
        assert_eq!(values[..], over(&VALUES_WITH_TWO, &[77; 7]));
    }
}

/// Accepted nests whose boundary values are not all equal. In most of them at least two values of
/// the table change if the first is taken for all.
#[test]
fn different_boundary_values_are_planned_alike() {
    let mut random = Random::new(26);
    let (mut different, mut shown) = (0, 0);
    for nest in accepted(27, 300).iter().filter(|nest| !are_equal(&nest.boundary_values)) {
        compare_accepted(&mut random, nest);
        let mut wrong = nest.clone();
        wrong.boundary_values.fill(nest.boundary_values[0]);
        let pairs = Plan::new(nest).values.into_iter().zip(Plan::new(&wrong).values);
        different += 1;
        shown += u64::from(pairs.filter(|(value, other)| value != other).count() >= 2);
    }
    assert!(different >= 100 && shown >= 80, "{different} {shown}");
}

#[test]
fn nests_at_the_corners_of_steps_are_planned_alike() {
    let mut random = Random::new(25);
    let corners = corners(&mut random);
    let with_gaps: Vec<bool> =
        corners.iter().map(|nest| compare_accepted(&mut random, nest)).collect();
    // all have gaps but for one iteration alone, which has one time
    let expected: Vec<bool> = corners.iter().map(|nest| nest.iteration_count() > 1).collect();
    assert_eq!(with_gaps, expected);
}

#[test]
fn refused_nests_are_not_planned_whatever_the_room() {
    let mut random = Random::new(22);
    let nests = refused(7, 600);
    for (number, nest) in &nests {
        let lent = lent(&mut random, nest);
        for entries in [0, 7, MAX_ITERATIONS] {
            compare_planning(&lent, [entries; 4], Err(*number));
            compare_filling(&lent, entries, Err(*number));
        }
    }
    assert_seen(nests.iter().map(|(number, _)| *number).collect(), OF_NESTS);
}

/// Lists a text into a buffer of so many bytes and compares with what must be answered and left.
fn compare_listing(bytes: &[u8], room: usize, expected: Result<&[u8], u8>) {
    let before = vec![77; room];
    let ((number, length), listed) = after(&before, |buffer| {
        let mut length = 77;
        (exported::list(bytes, buffer, &mut length), length)
    });
    let (result, same) = after(&before, |buffer| rowlock::list(bytes, buffer));
    assert_eq!((result.map_err(Refusal::number), &listed), (expected.map(<[u8]>::len), &same));
    match expected {
        Ok(text) => assert_eq!((number, length, listed), (0, text.len(), over(text, &before))),
        Err(refusal) => assert_eq!((number, length, listed), (refusal, 0, before)),
    }
}

#[test]
fn texts_whole_and_damaged_are_listed_alike() {
    let mut seen = Vec::new();
    for index in 0..600 {
        let bytes = sheets::case(8, index).text;
        let lines = listing(&bytes).into_bytes();
        match text::read(&bytes) {
            Ok(_) => {
                compare_listing(&bytes, lines.len(), Ok(&lines));
                compare_listing(&bytes, lines.len() + 5, Ok(&lines));
                compare_listing(&bytes, lines.len() - 1, Err(14));
                compare_listing(&bytes, 0, Err(14));
            }
            Err(number) => {
                seen.push(byte(number));
                compare_listing(&bytes, 0, Err(byte(number)));
                compare_listing(&bytes, 40, Err(byte(number)));
            }
        }
    }
    assert_seen(seen, &[&[1], OF_NESTS].concat());
}

#[test]
fn the_listing_of_the_document() {
    let lines = b"     6     4     3     2     2\n     0     0     0     0     5\n     1     1     0     0    14\n     2     2     1     1    33\n     3     1     2     0    20\n     4     2     0     0    86\n     5     3     0     0   276\n";
    for room in 0..lines.len() {
        compare_listing(P2, room, Err(14));
    }
    compare_listing(P2, lines.len(), Ok(lines));
}

#[test]
fn the_longest_listing_fills_the_most_bytes() {
    for depth in nests::full_depths() {
        let text = text::write(&nests::full(&mut Random::new(23), depth));
        let mut buffer = vec![0; MAX_LISTING];
        assert_eq!(rowlock::list(text.as_bytes(), &mut buffer), Ok(MAX_LISTING));
    }
}

/// Full nests, and those at the corners of steps: one has its times as far apart as can be.
#[test]
fn half_a_megabyte_of_stack_is_enough() {
    let mut random = Random::new(24);
    let full: Vec<LoopNest> =
        nests::full_depths().map(|depth| nests::full(&mut random, depth)).collect();
    for nest in [full, corners(&mut random)].concat() {
        let text = text::write(&nest);
        let length = listing(text.as_bytes()).len();
        let listed = move || rowlock::list(text.as_bytes(), &mut vec![0; MAX_LISTING]);
        let small = std::thread::Builder::new().stack_size(512 << 10);
        let thread = small.spawn(listed).expect("a thread");
        assert_eq!(thread.join().expect("the listing is made"), Ok(length));
    }
}
