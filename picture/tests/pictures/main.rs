//! What pictures show: the squares, colours, labels and arrows of plans that were drawn up by hand
//! from document 01, or listed by the second planner; and what is refused.

mod drawn;
mod four_loops;
mod program;
mod refused;
mod xml;

use picture::page;
use picture::plan::Plan;
use xml::Node;

/// Document 01's listing in full, P2: the sheet of the examples, and what the planning program has
/// to print for it.
const P2_SHEET: &str = include_str!("../../../examples/P2.txt");
const P2_LISTING: &str = include_str!("../../../crates/plan/stdout");

/// A text of six-column fields.
fn text(lines: &[&[i64]]) -> String {
    lines.iter().map(|line| second::text::write_line(line)).collect()
}

fn plan(name: &str, sheet: &str, listing: &str) -> Plan {
    Plan::read(name, sheet.as_bytes(), listing.as_bytes()).expect("a plan")
}

/// The plan that the second planner makes of a sheet.
fn second_plan(name: &str, sheet: &str) -> Plan {
    plan(name, sheet, &second::listing::listing(sheet.as_bytes()))
}

fn drawn(plans: &[Plan]) -> Node {
    xml::read(&page::drawn(plans)).expect("a well-formed picture")
}
