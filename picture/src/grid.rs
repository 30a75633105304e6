//! Where each iteration stands in the picture.
//!
//! A layer is a grid with a row for each index of the loop before the innermost and a column for
//! each index of the innermost one. A nest of three loops has a layer for each outermost index;
//! fewer loops make one layer, one loop a single row. Layers stand side by side, in as many bands
//! as are needed. A nest of four loops has a layer for each two outermost indices: each outermost
//! index begins a band of its own, with a layer for each index of the second loop, and takes more
//! bands where these are too many for one. The bands stand one below the other; only where that
//! would be a very high pile do those of several outermost indices stand side by side.

use crate::plan::Plan;

/// A place in the picture; y grows downwards.
#[derive(Clone, Copy, Debug, PartialEq)]
pub struct Point {
    pub x: f64,
    pub y: f64,
}

/// Layer, row and column of an iteration, counted from 0.
#[derive(Clone, Copy, Debug, PartialEq, Eq)]
pub struct Place {
    pub layer: usize,
    pub row: usize,
    pub column: usize,
}

/// Up to this many iterations are labelled, if their rows and columns are no longer than this with
/// room for labels. Others are drawn small, without labels, and the smaller the longer their rows and
/// columns are, so that 4096 iterations (64 by 64, 16 by 16 by 16, or 8 by 8 by 8 by 8) still fit a
/// screen or two.
const MOST_LABELLED: usize = 400;
const LABELLED_LENGTH: f64 = 2000.0;

/// The distances from one labelled iteration to the next: the least and the greatest in one layer;
/// across and down where there are layers, with room between the rows for the lines that lead from
/// layer to layer.
const LABELLED_DISTANCES: (f64, f64) = (54.0, 72.0);
const LAYERED_DISTANCES: (f64, f64) = (56.0, 80.0);

/// How long a row or column of small iterations may become, as long as the iterations can be seen
/// at all: the least and the greatest distance from one to the next.
const SMALL_LENGTH: f64 = 1000.0;
const SMALL_DISTANCES: (f64, f64) = (3.0, 14.0);

/// How wide a band of layers may become, of three loops and of four: 8 layers of 8 by 8 small
/// iterations are one. And how narrow a layer may be, for its title.
const BAND: f64 = 1100.0;
const WIDE_BAND: f64 = 1400.0;
const NARROWEST_LAYER: f64 = 120.0;
/// How high a pile of bands may become before bands of several outermost indices stand side by
/// side.
const PILE: f64 = 3600.0;
/// Room on the right of a layer and below it where there are several bands, for the lines that lead
/// from band to band: they cross no title and no index there. The wide one is that of four loops,
/// where more lines do.
const LANE: f64 = 14.0;
const WIDE_LANE: f64 = 20.0;

/// Room beside a layer for the indices of its rows, and above it for those of its columns.
const LEFT_OF_LAYER: f64 = 40.0;
const ABOVE_LAYER: f64 = 24.0;
/// Room above that for the layer's title, where there are layers, and above all for the band's
/// title, where there is a fourth loop.
const LAYER_TITLE: f64 = 24.0;
pub const BAND_TITLE: f64 = 26.0;

/// How many loops the places of iterations have: outermost index, layer, row and column.
const LOOPS: usize = 4;

/// The measures of a grid.
#[derive(Clone, Debug)]
pub struct Grid {
    /// The side of an iteration's square.
    pub side: f64,
    /// From one column to the next, and from one row to the next.
    pub across: f64,
    pub down: f64,
    pub labelled: bool,
    /// Whether there are layers, and whether they stand in a band for each outermost index.
    pub layered: bool,
    pub banded: bool,
    /// The number of outermost indices, of layers for each of them, of rows and of columns.
    pub extents: [usize; LOOPS],
    /// The least index in each direction.
    pub lower: [i64; LOOPS],
    layers_in_band: usize,
    /// How many outermost indices have their bands side by side.
    side_by_side: usize,
    /// The room for lines from band to band; 0 where there is one band.
    lane: f64,
    places: Vec<Place>,
}

impl Grid {
    pub fn new(plan: &Plan) -> Grid {
        let lower = with_all_loops(&plan.nest.lower, 0);
        let upper = with_all_loops(&plan.nest.upper, 0);
        let extents = std::array::from_fn(|k| (upper[k] - lower[k] + 1) as usize);
        let [layered, banded] = [3, 4].map(|depth| plan.nest.depth >= depth);
        let labelled = plan.entries.len() <= MOST_LABELLED && labels_fit(layered, extents);
        let (side, across, down) = measures(labelled, layered, extents[2].max(extents[3]));
        let place = |point: &Vec<i64>| place_of(point, lower, extents[1]);
        let places = plan.iterations.points.iter().map(place).collect();
        let mut grid = Grid {
            side,
            across,
            down,
            labelled,
            layered,
            banded,
            extents,
            lower,
            layers_in_band: extents[1],
            side_by_side: 1,
            lane: 0.0,
            places,
        };
        grid.set_bands();
        grid
    }

    /// Lays the layers in bands: first whether there are several, then how many layers fit one with
    /// room for lines, and how many bands have to stand side by side.
    fn set_bands(&mut self) {
        let (widest, lane) = if self.banded { (WIDE_BAND, WIDE_LANE) } else { (BAND, LANE) };
        let fitting = |width: f64, most: usize| ((widest / width) as usize).clamp(1, most);
        let several = fitting(self.layer_width(), self.extents[1]) < self.extents[1];
        self.lane = if several || self.extents[0] > 1 { lane } else { 0.0 };
        self.layers_in_band = fitting(self.layer_width(), self.extents[1]);
        if self.height() > PILE {
            self.side_by_side = fitting(self.width(), self.extents[0]);
        }
    }

    pub fn place(&self, rank: usize) -> Place {
        self.places[rank]
    }

    /// The middle of an iteration's square.
    pub fn centre(&self, rank: usize) -> Point {
        let Place { layer, row, column } = self.places[rank];
        let corner = self.corner(layer);
        Point {
            x: corner.x + self.across * (column as f64 + 0.5),
            y: corner.y + self.down * (row as f64 + 0.5),
        }
    }

    /// The upper left corner of a layer, without the room for its indices and title.
    pub fn corner(&self, layer: usize) -> Point {
        Point {
            x: self.place_in_band(layer) as f64 * self.layer_width() + LEFT_OF_LAYER,
            y: self.band(layer) as f64 * self.layer_height() + self.above_layer(),
        }
    }

    pub fn width(&self) -> f64 {
        (self.side_by_side * self.layers_in_band) as f64 * self.layer_width()
    }

    pub fn height(&self) -> f64 {
        let bands = self.extents[0].div_ceil(self.side_by_side) * self.bands_of_index();
        bands as f64 * self.layer_height()
    }

    fn layer_width(&self) -> f64 {
        (LEFT_OF_LAYER + self.across * self.extents[3] as f64).max(NARROWEST_LAYER) + self.lane
    }

    fn layer_height(&self) -> f64 {
        self.above_layer() + self.down * self.extents[2] as f64 + self.lane
    }

    /// How many layers there are in all.
    pub fn layers(&self) -> usize {
        self.extents[0] * self.extents[1]
    }

    /// How many bands the layers of one outermost index take.
    fn bands_of_index(&self) -> usize {
        self.extents[1].div_ceil(self.layers_in_band)
    }

    /// The number of a layer's outermost index, and of its layer among those of this index.
    fn numbers(&self, layer: usize) -> (usize, usize) {
        (layer / self.extents[1], layer % self.extents[1])
    }

    /// The number of the band that a layer stands in, from the top.
    pub fn band(&self, layer: usize) -> usize {
        let (outermost, number) = self.numbers(layer);
        outermost / self.side_by_side * self.bands_of_index() + number / self.layers_in_band
    }

    /// How many layers stand on the left of a layer.
    fn place_in_band(&self, layer: usize) -> usize {
        let (outermost, number) = self.numbers(layer);
        outermost % self.side_by_side * self.layers_in_band + number % self.layers_in_band
    }

    /// The index that a layer is named after, and the one that its band is named after.
    pub fn layer_index(&self, layer: usize) -> i64 {
        self.lower[1] + self.numbers(layer).1 as i64
    }

    pub fn band_index(&self, layer: usize) -> i64 {
        self.lower[0] + self.numbers(layer).0 as i64
    }

    /// The middle of the lane on the right of a layer, across, and of the one below it, down.
    pub fn lanes(&self, layer: usize) -> Point {
        let corner = self.corner(layer);
        Point {
            x: corner.x - LEFT_OF_LAYER + self.layer_width() - self.lane / 2.0,
            y: corner.y - self.above_layer() + self.layer_height() - self.lane / 2.0,
        }
    }

    /// The first layer of a band.
    pub fn starts_band(&self, layer: usize) -> bool {
        self.place_in_band(layer) == 0
    }

    /// The first layer of an outermost index in a band, where these indices have bands.
    pub fn starts_index(&self, layer: usize) -> bool {
        self.banded && self.numbers(layer).1.is_multiple_of(self.layers_in_band)
    }

    fn above_layer(&self) -> f64 {
        let layer_title = if self.layered { LAYER_TITLE } else { 0.0 };
        let band_title = if self.banded { BAND_TITLE } else { 0.0 };
        ABOVE_LAYER + self.above_rows() + layer_title + band_title
    }

    /// Room above the first row, for lines that pass over it and for the name of the rows' index.
    pub fn above_rows(&self) -> f64 {
        ((self.down - self.side) / 2.0).max(14.0)
    }
}

/// Whether rows and columns of these extents have room for labels.
fn labels_fit(layered: bool, extents: [usize; LOOPS]) -> bool {
    let (across, down) = match layered {
        true => LAYERED_DISTANCES,
        false => (LABELLED_DISTANCES.0, LABELLED_DISTANCES.0),
    };
    across * extents[3] as f64 <= LABELLED_LENGTH && down * extents[2] as f64 <= LABELLED_LENGTH
}

/// The side of a square, and the distances from column to column and from row to row, where the
/// longest row or column has so many.
fn measures(labelled: bool, layered: bool, longest: usize) -> (f64, f64, f64) {
    let within = |length: f64, (least, greatest)| (length / longest as f64).clamp(least, greatest);
    match (labelled, layered) {
        (true, false) => {
            let distance = within(LABELLED_LENGTH, LABELLED_DISTANCES);
            (42.0, distance, distance)
        }
        (true, true) => (40.0, LAYERED_DISTANCES.0, LAYERED_DISTANCES.1),
        (false, _) => {
            let distance = within(SMALL_LENGTH, SMALL_DISTANCES);
            (0.6 * distance, distance, if layered { 1.4 * distance } else { distance })
        }
    }
}

/// A number for each loop of a place: missing outer loops get the given one.
fn with_all_loops(numbers: &[i64], missing: i64) -> [i64; LOOPS] {
    let mut all = [missing; LOOPS];
    all[LOOPS - numbers.len()..].copy_from_slice(numbers);
    all
}

fn place_of(point: &[i64], lower: [i64; LOOPS], layers: usize) -> Place {
    let point = with_all_loops(point, 0);
    let [outermost, layer, row, column] = std::array::from_fn(|k| (point[k] - lower[k]) as usize);
    Place { layer: outermost * layers + layer, row, column }
}
