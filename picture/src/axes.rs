//! The indices beside the rows and above the columns of each layer, and the titles of layers and of
//! bands.

use crate::grid::{Grid, Point, BAND_TITLE};
use crate::plan::Plan;
use crate::svg::Element;

/// Room that an index needs, in a row of indices and in a column of them.
const INDEX_WIDTH: f64 = 36.0;
const INDEX_HEIGHT: f64 = 14.0;

/// Where indices stand: left of the first column, above the first row. Their names stand further
/// left where the first column's index reaches over the layer's corner.
const LEFT: f64 = 6.0;
const LEFT_OF_SMALL: f64 = 22.0;
const ABOVE: f64 = 6.0;
/// The height of a layer's title above the columns' indices.
const TITLE: f64 = 22.0;

pub fn drawn(plan: &Plan, grid: &Grid) -> Element {
    let layers = (0..grid.layers()).flat_map(|layer| layer_axes(plan, grid, layer));
    Element::group("axes")
        .with("font-size", 12)
        .with("fill", "#444444")
        .with("text-anchor", "middle")
        .holding(layers)
}

/// The indices and the title of one layer. The indices' names stand at the first layer of a band,
/// and an outermost index that has bands stands at its first layer in each.
fn layer_axes(plan: &Plan, grid: &Grid, layer: usize) -> Vec<Element> {
    let depth = plan.nest.depth;
    let corner = grid.corner(layer);
    let above = corner.y - grid.above_rows() - ABOVE;
    let mut axes = column_indices(grid, corner, above);
    if depth > 1 {
        axes.extend(row_indices(grid, corner));
    }
    let names = corner.x - if grid.labelled { LEFT } else { LEFT_OF_SMALL };
    if grid.starts_band(layer) {
        axes.push(axis_name(names, above, &format!("i{depth} →")));
    }
    if grid.starts_band(layer) && depth > 1 {
        axes.push(axis_name(names, above + INDEX_HEIGHT, &format!("i{} ↓", depth - 1)));
    }
    if grid.layered {
        let said = format!("i{} = {}", depth - 2, grid.layer_index(layer));
        axes.push(layer_title(grid, corner, above, &said));
    }
    if grid.starts_index(layer) {
        let said = format!("i{} = {}", depth - 3, grid.band_index(layer));
        axes.push(band_title(corner, above, &said));
    }
    axes
}

fn column_indices(grid: &Grid, corner: Point, above: f64) -> Vec<Element> {
    let index = |column: usize| {
        let x = corner.x + grid.across * (column as f64 + 0.5);
        Element::label(x, above, &format!("{}", grid.lower[3] + column as i64))
    };
    (0..grid.extents[3]).step_by(stride(INDEX_WIDTH / grid.across)).map(index).collect()
}

fn row_indices(grid: &Grid, corner: Point) -> Vec<Element> {
    let index = |row: usize| {
        let y = corner.y + grid.down * (row as f64 + 0.5) + 4.0;
        Element::label(corner.x - LEFT, y, &format!("{}", grid.lower[2] + row as i64))
            .with("text-anchor", "end")
    };
    (0..grid.extents[2]).step_by(stride(INDEX_HEIGHT / grid.down)).map(index).collect()
}

fn axis_name(x: f64, y: f64, name: &str) -> Element {
    Element::label(x, y, name).with("text-anchor", "end").with("font-style", "italic")
}

fn layer_title(grid: &Grid, corner: Point, above: f64, said: &str) -> Element {
    let middle = corner.x + grid.across * grid.extents[3] as f64 / 2.0;
    title(middle, above - TITLE, said, 14)
}

/// A band's title, which begins where its first layer's indices do.
fn band_title(corner: Point, above: f64, said: &str) -> Element {
    title(corner.x - LEFT_OF_SMALL, above - TITLE - BAND_TITLE, said, 16)
        .with("text-anchor", "start")
}

fn title(x: f64, y: f64, said: &str, size: u32) -> Element {
    Element::label(x, y, said).with("font-size", size).with("font-weight", "bold")
}

/// The least of 1, 2, 5, 10, 20, 50 .. that is at least as great: every so many indices are
/// written.
fn stride(least: f64) -> usize {
    let powers = (0..).map(|power| 10_usize.pow(power));
    let mut strides = powers.flat_map(|power| [power, 2 * power, 5 * power]);
    strides.find(|&stride| stride as f64 >= least).expect("a stride for a row that fits a picture")
}
