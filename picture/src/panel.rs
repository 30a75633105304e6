//! The picture of one plan: what the nest is, the iterations with their lines, the legend.

use crate::grid::Grid;
use crate::plan::Plan;
use crate::svg::Element;
use crate::{axes, colours, legend, lines, squares, words};

/// A drawn plan with its size.
pub struct Panel {
    pub element: Element,
    pub width: f64,
    pub height: f64,
}

/// The height of the lines of text above the grid, and the room below them.
const LINE: f64 = 20.0;
const BELOW_TEXT: f64 = 18.0;
/// A legend stands on the right of a grid that is no wider than this, and below a wider one.
const NARROW: f64 = 560.0;
const BESIDE: f64 = 36.0;

pub fn drawn(plan: &Plan) -> Panel {
    let grid = Grid::new(plan);
    let (heading, text_width, text_height) = heading(plan, &grid);
    let narrow = grid.width() <= NARROW;
    let legend = legend::drawn(plan, if narrow { 0.0 } else { grid.width() });
    let (right, down) = match narrow {
        true => (grid.width() + BESIDE, grid.corner(0).y),
        false => (0.0, grid.height() + BESIDE / 2.0),
    };
    let width = text_width.max(grid.width()).max(right + legend.width);
    let height = text_height + grid.height().max(down + legend.height);
    let body = Element::group("plan").moved(0.0, text_height).holding([
        axes::drawn(plan, &grid),
        lines::inner(plan, &grid),
        lines::messages(plan, &grid),
        iterations(plan, &grid),
        legend.element.moved(right, down),
    ]);
    let element = Element::group("panel").holding([heading, body]);
    Panel { element, width, height }
}

/// The lines of text above the grid, with their width and height.
fn heading(plan: &Plan, grid: &Grid) -> (Element, f64, f64) {
    let [nest, dependences] = words::nest(plan);
    let mut lines = vec![nest, dependences, words::counts(plan)];
    if !grid.labelled {
        lines.push("too many iterations for labels: point at one to read it".into());
    }
    let width = words::width(&lines);
    let title =
        Element::label(0.0, LINE, &plan.name).with("font-size", 18).with("font-weight", "bold");
    let below = |(place, line): (usize, &String)| {
        Element::label(0.0, LINE * (place + 2) as f64 + 4.0, line)
    };
    let height = LINE * (lines.len() + 1) as f64 + 4.0 + BELOW_TEXT;
    let lines: Vec<Element> = lines.iter().enumerate().map(below).collect();
    let element =
        Element::group("heading").with("font-size", words::SIZE).holding([title]).holding(lines);
    (element, width, height)
}

/// The iterations, block by block.
fn iterations(plan: &Plan, grid: &Grid) -> Element {
    let blocks = plan.blocks();
    let block = |(block, ranks): (usize, &Vec<usize>)| {
        let colour = colours::written(colours::of_block(block));
        Element::group("block")
            .with("fill", colour)
            .holding(ranks.iter().map(|&rank| iteration(plan, grid, rank)))
    };
    Element::group("iterations").holding(blocks.iter().enumerate().map(block))
}

/// An iteration: a square with its step, block and processor, and all of its line as a tooltip.
fn iteration(plan: &Plan, grid: &Grid, rank: usize) -> Element {
    let centre = grid.centre(rank);
    let title = Element::new("title").saying(&words::iteration(plan, rank));
    let labels = squares::labels(centre, &plan.entries[rank]);
    Element::group("iteration")
        .holding([title, squares::square(centre, grid.side)])
        .holding(labels.into_iter().filter(|_| grid.labelled))
}
