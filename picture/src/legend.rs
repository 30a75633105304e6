//! The list of blocks with their colours, sizes and processors.

use crate::colours;
use crate::plan::Plan;
use crate::svg::Element;
use crate::words;

/// The height of an entry, the side of its colour's square and the place of its text.
const HEIGHT: f64 = 22.0;
const SWATCH: f64 = 14.0;
const TEXT: f64 = 22.0;
/// Room between two columns of entries.
const BETWEEN: f64 = 24.0;

/// So many blocks are listed; of more, the tooltips of their iterations tell.
const MOST_LISTED: usize = 60;

/// The legend with its own width and height.
pub struct Legend {
    pub element: Element,
    pub width: f64,
    pub height: f64,
}

/// The legend of a plan in columns, as many as fit a width.
pub fn drawn(plan: &Plan, width: f64) -> Legend {
    let texts = listed_blocks(plan);
    let column_width = TEXT + words::width(&texts) + BETWEEN;
    let columns = ((width / column_width) as usize).clamp(1, texts.len());
    let rows = texts.len().div_ceil(columns);
    let entry = |(place, text): (usize, &String)| {
        let (column, row) = ((place / rows) as f64, (place % rows) as f64);
        entry(place, text).moved(column * column_width, row * HEIGHT)
    };
    let entries = texts.iter().enumerate().map(entry);
    let element = Element::group("legend").with("font-size", words::SIZE).holding(entries);
    Legend { element, width: columns as f64 * column_width, height: rows as f64 * HEIGHT }
}

/// What is said of each block that is listed, and of all others.
fn listed_blocks(plan: &Plan) -> Vec<String> {
    let blocks = plan.blocks();
    let listed = blocks.iter().enumerate().take(MOST_LISTED);
    let mut texts: Vec<String> =
        listed.map(|(block, ranks)| words::block(plan, block, ranks)).collect();
    if blocks.len() > MOST_LISTED {
        texts.push(words::counted(blocks.len() - MOST_LISTED, "more block"));
    }
    texts
}

/// An entry; the one after all that are listed has no colour.
fn entry(block: usize, text: &str) -> Element {
    let swatch = Element::new("rect")
        .at("width", SWATCH)
        .at("height", SWATCH)
        .at("rx", 3.0)
        .with("fill", colours::written(colours::of_block(block)));
    Element::new("g")
        .holding([swatch].into_iter().filter(|_| block < MOST_LISTED))
        .holding([Element::label(TEXT, SWATCH - 2.0, text)])
}
