//! The program: its exit status, and what it prints.

use std::fs;
use std::process::{Command, Output};

use picture::page;

use crate::{plan, P2_LISTING, P2_SHEET};

/// A file of a test's own.
fn file(name: &str, content: &str) -> String {
    let path = format!("{}/{name}", env!("CARGO_TARGET_TMPDIR"));
    fs::write(&path, content).expect("a file");
    path
}

fn run(files: &[&str]) -> Output {
    Command::new(env!("CARGO_BIN_EXE_picture")).args(files).output().expect("a run")
}

/// Status and standard error of a run that prints no picture.
fn refused(files: &[&str]) -> (Option<i32>, String) {
    let output = run(files);
    assert!(output.stdout.is_empty());
    (output.status.code(), String::from_utf8(output.stderr).expect("words"))
}

#[test]
fn pictures_are_printed() {
    let (sheet, listing) = (file("drawn.txt", P2_SHEET), file("drawn.listing", P2_LISTING));
    let output = run(&[&sheet, &listing, &sheet, &listing]);
    let p2 = plan("drawn", P2_SHEET, P2_LISTING);
    assert_eq!(output.status.code(), Some(0));
    assert_eq!(String::from_utf8(output.stdout).expect("a text"), page::drawn(&[p2.clone(), p2]));
}

#[test]
fn what_is_no_plan_ends_with_status_1() {
    let (sheet, refusal) = (file("refused.txt", P2_SHEET), file("refused.listing", "     9\n"));
    let said = format!("picture: {sheet}: the listing is a refusal, number 9, and no plan\n");
    assert_eq!(refused(&[&sheet, &refusal]), (Some(1), said));
    let (status, said) = refused(&[&sheet, "/no/such/listing"]);
    assert!(status == Some(1) && said.starts_with("picture: /no/such/listing: "));
}

#[test]
fn a_wrong_call_ends_with_status_2() {
    let sheet = file("alone.txt", P2_SHEET);
    for files in [&[][..], &[&sheet[..]]] {
        let (status, said) = refused(files);
        assert!(status == Some(2) && said.starts_with("usage: picture/run SHEET .."));
    }
}
