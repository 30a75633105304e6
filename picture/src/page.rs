//! The whole picture: the key, then the plans one below the other.

use crate::grid::Point;
use crate::panel::{self, Panel};
use crate::plan::{Entry, Plan};
use crate::svg::{short, Element};
use crate::{colours, lines, squares, words};

/// The room around the picture and between its parts.
const MARGIN: f64 = 24.0;
const BETWEEN: f64 = 30.0;
/// The width of the key, the side of its square and the length of its lines.
const KEY_WIDTH: f64 = 820.0;
const KEY_SIDE: f64 = 42.0;
const LINE: f64 = 36.0;

/// The plans as one SVG text.
pub fn drawn(plans: &[Plan]) -> String {
    let panels: Vec<Panel> = plans.iter().map(panel::drawn).collect();
    let widest = panels.iter().map(|panel| panel.width).fold(KEY_WIDTH, f64::max);
    let width = widest + 2.0 * MARGIN;
    let mut parts = vec![key().moved(MARGIN, MARGIN)];
    let mut top = MARGIN + KEY_SIDE;
    for panel in panels {
        parts.push(panel.element.moved(MARGIN, top + BETWEEN));
        top += BETWEEN + panel.height;
    }
    let height = top + MARGIN;
    let background = Element::new("rect").with("width", "100%").with("height", "100%");
    frame(width, height)
        .holding(titles(plans))
        .holding([Element::new("defs").holding([lines::head()])])
        .holding([background.with("fill", "#ffffff")])
        .holding(parts)
        .written()
}

/// The outermost element.
fn frame(width: f64, height: f64) -> Element {
    Element::new("svg")
        .with("xmlns", "http://www.w3.org/2000/svg")
        .with("viewBox", format!("0 0 {} {}", short(width), short(height)))
        .at("width", width)
        .at("height", height)
        .with("font-family", "Helvetica, Arial, sans-serif")
        .with("fill", "#202020")
        .with("role", "img")
        .with("aria-labelledby", "title desc")
}

/// The picture in words, for those who do not see it.
fn titles(plans: &[Plan]) -> [Element; 2] {
    let names: Vec<&str> = plans.iter().map(|plan| plan.name.as_str()).collect();
    let title = format!("Plans of {}", names.join(", "));
    let counts: Vec<String> =
        plans.iter().map(|plan| format!("{}: {}.", plan.name, words::counts(plan))).collect();
    let desc = format!(
        "Each square is an iteration, coloured by its block and labelled with its step, block and \
         processor. Arrows are messages between processors. {}",
        counts.join(" ")
    );
    [
        Element::new("title").with("id", "title").saying(&title),
        Element::new("desc").with("id", "desc").saying(&desc),
    ]
}

/// How the picture is read: an iteration, a message and another dependence, each with its words.
fn key() -> Element {
    let entry = Entry { step: 3, block: 0, processor: 2, value: 0 };
    let centre = Point { x: KEY_SIDE / 2.0, y: KEY_SIDE / 2.0 };
    let square = squares::square(centre, KEY_SIDE)
        .with("fill", colours::written(squares::colour_of(&entry)));
    let [arrow, faint] = lines::samples(LINE);
    let words = |x: f64, text: &str| Element::label(x, centre.y + 5.0, text);
    Element::group("key")
        .with("font-size", words::SIZE)
        .holding([square])
        .holding(squares::labels(centre, &entry))
        .holding([words(54.0, "an iteration: step 3, block 0 (its colour), processor 2")])
        .holding([arrow.moved(420.0, centre.y), words(466.0, "a message")])
        .holding([faint.moved(560.0, centre.y), words(606.0, "a dependence inside a processor")])
}
