//! An iteration's square and the labels in it.

use crate::colours::{self, Colour};
use crate::grid::Point;
use crate::plan::Entry;
use crate::svg::Element;

/// The heights of the labels, and the lower one's distance from the middle of the square.
const STEP: u32 = 16;
const PLACE: u32 = 10;
const BELOW: f64 = 14.0;

/// A square with round corners around a point.
pub fn square(centre: Point, side: f64) -> Element {
    Element::new("rect")
        .at("x", centre.x - side / 2.0)
        .at("y", centre.y - side / 2.0)
        .at("width", side)
        .at("height", side)
        .at("rx", side / 5.0)
}

/// The step in bold, block and processor below it.
pub fn labels(centre: Point, entry: &Entry) -> [Element; 2] {
    let Entry { step, block, processor, .. } = entry;
    let label = |y: f64, text: &str, size: u32| {
        Element::label(centre.x, y, text)
            .with("font-size", size)
            .with("text-anchor", "middle")
            .with("fill", colours::written(colours::of_text_on(colour_of(entry))))
    };
    [
        label(centre.y, &step.to_string(), STEP).with("font-weight", "bold"),
        label(centre.y + BELOW, &format!("b{block} p{processor}"), PLACE),
    ]
}

/// The colour of an iteration's block.
pub fn colour_of(entry: &Entry) -> Colour {
    colours::of_block(entry.block as usize)
}
