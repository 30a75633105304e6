//! Draws plans: a sheet and its listing become an SVG text. The picture shows what the listing
//! says; only the sources of an iteration are worked out here, from the sheet.
//!
//! | file | holds |
//! |---|---|
//! | `plan.rs` | a sheet and its listing, and whether they fit each other |
//! | `grid.rs` | where each iteration stands |
//! | `colours.rs` | a colour for each block |
//! | `squares.rs` | an iteration's square and the labels in it |
//! | `routes.rs`, `lines.rs` | how a line runs; arrows and faint lines |
//! | `axes.rs`, `legend.rs` | the indices of rows, columns, layers and bands; the list of blocks |
//! | `panel.rs` | the picture of one plan |
//! | `page.rs` | the whole picture: the key and the plans, one below the other |
//! | `words.rs`, `svg.rs` | numbers in words; elements of an SVG text |

mod axes;
pub mod colours;
mod grid;
mod legend;
mod lines;
pub mod page;
mod panel;
pub mod plan;
mod routes;
mod squares;
mod svg;
mod words;
