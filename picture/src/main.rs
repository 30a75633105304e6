//! Draws plans as one SVG text on standard output.
//!
//!     picture SHEET LISTING [SHEET LISTING ..]
//!
//! Each plan is named after its sheet's file. The exit status is 1, and nothing is printed, if a
//! sheet and its listing are no plan; 2 if the call itself is wrong.

use std::io::{self, Write};
use std::path::Path;
use std::process::ExitCode;
use std::{env, fs};

use picture::page;
use picture::plan::{Complaint, Plan};

fn main() -> ExitCode {
    let files: Vec<String> = env::args().skip(1).collect();
    if files.is_empty() || !files.len().is_multiple_of(2) {
        eprintln!("usage: picture/run SHEET ..");
        eprintln!("       picture/run --listed SHEET LISTING [SHEET LISTING ..]");
        return ExitCode::from(2);
    }
    match draw(&files) {
        Ok(()) => ExitCode::SUCCESS,
        Err(complaint) => {
            eprintln!("picture: {complaint}");
            ExitCode::FAILURE
        }
    }
}

/// Prints the picture of all plans, once all of them are read.
fn draw(files: &[String]) -> Result<(), Complaint> {
    let plans = files.chunks(2).map(|pair| read_plan(&pair[0], &pair[1]));
    let picture = page::drawn(&plans.collect::<Result<Vec<Plan>, Complaint>>()?);
    io::stdout().write_all(picture.as_bytes()).map_err(|error| error.to_string())
}

fn read_plan(sheet: &str, listing: &str) -> Result<Plan, Complaint> {
    let name = Path::new(sheet).file_stem().unwrap_or_default().to_string_lossy();
    Plan::read(&name, &read_file(sheet)?, &read_file(listing)?)
        .map_err(|complaint| format!("{sheet}: {complaint}"))
}

fn read_file(path: &str) -> Result<Vec<u8>, Complaint> {
    fs::read(path).map_err(|error| format!("{path}: {error}"))
}
