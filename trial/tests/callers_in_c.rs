//! The library called from C: `entries.c`, and the example in C beside the one in Rust. Needs `cc`,
//! with its address and undefined behaviour sanitizers.

mod common;

use std::io::Write;
use std::path::{Path, PathBuf};
use std::process::{Command, Output, Stdio};

use common::P2;
use second::text;

/// The repository's folder.
fn root() -> PathBuf {
    Path::new(env!("CARGO_MANIFEST_DIR")).join("..")
}

/// Compiles a program in C, every warning an error, and links it with the library.
fn compile(source: &str, name: &str, more: &[&str]) -> PathBuf {
    let program = Path::new(env!("CARGO_TARGET_TMPDIR")).join(name);
    let mut cc = Command::new("cc");
    cc.args([
        "-std=c99",
        "-Wall",
        "-Wextra",
        "-Werror",
        "-pedantic",
        "-Ic",
        source,
        "target/staticlib/librowlock.a",
        "-o",
    ]);
    let status = cc.arg(&program).args(more).current_dir(root()).status().expect("cc is there");
    assert!(status.success(), "{source} does not compile");
    program
}

/// What a program prints and how it ends, given a text on its standard input.
fn run(program: &Path, text: &[u8]) -> Output {
    let mut child = Command::new(program)
        .stdin(Stdio::piped())
        .stdout(Stdio::piped())
        .spawn()
        .expect("the program starts");
    child.stdin.take().expect("it is piped").write_all(text).expect("the program takes the text");
    child.wait_with_output().expect("the program ends")
}

/// The example in Rust, which `cargo test` builds beside the tests: they run in
/// target/PROFILE/deps.
fn example() -> PathBuf {
    let test = std::env::current_exe().expect("this program has a path");
    test.ancestors().nth(2).expect("a folder of a profile").join("examples/plan")
}

#[test]
fn every_function_answers_as_the_document_says() {
    let program = compile(
        "c/entries.c",
        "entries",
        &["-fsanitize=address,undefined", "-fno-sanitize-recover=all"],
    );
    let output = run(&program, b"");
    assert!(
        output.status.success(),
        "{:?}\n{}",
        output.status,
        String::from_utf8_lossy(&output.stdout)
    );
}

#[test]
fn the_examples_print_what_the_document_says() {
    let expected = "6 iterations, 4 steps, 3 blocks, 2 processors, 2 messages\n\
                    iteration 0: step 0, block 0, processor 0\n\
                    iteration 1: step 1, block 0, processor 0\n\
                    iteration 2: step 2, block 1, processor 1\n\
                    iteration 3: step 1, block 2, processor 0\n\
                    iteration 4: step 2, block 0, processor 0\n\
                    iteration 5: step 3, block 0, processor 0\n\
                    6 computed, 2 delivered: the table of the sequential loop\n";
    for program in [compile("c/plan.c", "plan_listing", &[]), example()] {
        let output = run(&program, P2);
        assert!(output.status.success());
        assert_eq!(String::from_utf8_lossy(&output.stdout), expected);
        assert_eq!(run(&program, &P2[1..]).stdout, b"refused: 1\n");
    }
}

#[test]
fn the_examples_agree() {
    let in_c = compile("c/plan.c", "plan_agree", &[]);
    let mut accepted = 0;
    for case in (0..40).map(|index| sheets::case(51, index)) {
        let [first, second] = [&in_c, &example()].map(|program| run(program, &case.text));
        assert_eq!(
            String::from_utf8_lossy(&first.stdout),
            String::from_utf8_lossy(&second.stdout),
            "{}",
            case.kind
        );
        assert_eq!(first.status.code(), second.status.code());
        let ends_well = first.stdout.ends_with(b"delivered: the table of the sequential loop\n");
        let is_accepted = text::read(&case.text).is_ok();
        assert_eq!(
            (ends_well, first.status.success()),
            (is_accepted, is_accepted),
            "{}",
            case.kind
        );
        accepted += u64::from(ends_well);
    }
    assert!(accepted > 10);
}
