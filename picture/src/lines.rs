//! The lines between iterations: messages as arrows, other dependences as faint lines.

use crate::grid::Grid;
use crate::plan::{Link, Plan};
use crate::routes::Route;
use crate::svg::Element;
use crate::words;

/// The name of an arrow's head among the definitions.
const HEAD: &str = "head";

/// The colours and the widths of lines.
const DARK: &str = "#202020";
const FAINT: &str = "#c8c8c8";
const MESSAGE: f64 = 1.5;
const INNER: f64 = 1.0;

/// The links whose two ends are on one processor; none of them where iterations are small.
pub fn inner(plan: &Plan, grid: &Grid) -> Element {
    let links = plan.links();
    let inner = links.iter().filter(|link| grid.labelled && !plan.is_message(link));
    faint(Element::group("inner")).holding(inner.map(|link| line(grid, link)))
}

/// The messages, from the source to the iteration that reads it. They are thinner where iterations
/// are small.
pub fn messages(plan: &Plan, grid: &Grid) -> Element {
    let links = plan.links();
    let between = links.iter().filter(|link| plan.is_message(link));
    let arrow = |link: &Link| {
        let title = Element::new("title").saying(&words::message(plan, link));
        with_head(line(grid, link)).holding([title])
    };
    let width = if grid.labelled { MESSAGE } else { MESSAGE / 3.0 };
    dark(Element::group("messages"), width).holding(between.map(arrow))
}

fn line(grid: &Grid, link: &Link) -> Element {
    let route = Route::new(grid, link.source, link.target);
    Element::new("path").with("d", route.written())
}

/// An arrow and a faint line of a given length, for the key.
pub fn samples(length: f64) -> [Element; 2] {
    let path = || Element::new("path").with("d", format!("M0 0 L{length} 0"));
    [dark(with_head(path()), MESSAGE), faint(path())]
}

fn with_head(line: Element) -> Element {
    line.with("marker-end", format!("url(#{HEAD})"))
}

fn dark(lines: Element, width: f64) -> Element {
    lines.with("fill", "none").with("stroke", DARK).at("stroke-width", width)
}

fn faint(lines: Element) -> Element {
    lines.with("fill", "none").with("stroke", FAINT).at("stroke-width", INNER)
}

/// The head of an arrow, as large as its line is thick.
pub fn head() -> Element {
    Element::new("marker")
        .with("id", HEAD)
        .with("viewBox", "0 0 6 6")
        .with("refX", "5")
        .with("refY", "3")
        .with("markerWidth", "6")
        .with("markerHeight", "6")
        .with("orient", "auto")
        .holding([Element::new("path").with("d", "M0 0.4 L6 3 L0 5.6 Z").with("fill", DARK)])
}
