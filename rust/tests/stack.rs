//! How much stack one call takes, measured over the vectors of the repository with all symbols bound before the start.
use std::fs::File;
use std::path::Path;
use std::process::Command;

/// Each call with the bytes that it stays under.
const MOST: [(&str, usize); 8] = [
    ("settle", 7 << 10),
    ("page", 8 << 10),
    ("check", 23 << 10),
    ("day", 7 << 10),
    ("sheet_text", 72 << 10),
    ("make_sheet", 12 << 10),
    ("statement_text", 37 << 10),
    ("read_statement", 1 << 10),
];

#[test]
fn stack_of_each_call() {
    let here = Path::new(env!("CARGO_MANIFEST_DIR"));
    let program = Path::new(env!("CARGO_TARGET_TMPDIR")).join("stack");
    let compiled = Command::new("cc")
        .args(["-Wall", "-Wextra", "-Werror", "-O2", "-Wl,-z,now", "-I"])
        .args([here.join("../include"), here.join("tests/stack.c"), env!("NAOMHRAL_ARCHIVE").into()])
        .arg("-o")
        .arg(&program)
        .status()
        .expect("cc, the C compiler");
    assert!(compiled.success());
    let vectors = File::open(here.join("../crates/hour_vectors/stdin")).expect("the vectors");
    let run = Command::new(&program).stdin(vectors).output().unwrap();
    assert!(run.status.success());
    let printed = String::from_utf8(run.stdout).unwrap();
    let numbers: Vec<usize> = printed.split_whitespace().map(|word| word.parse().unwrap()).collect();
    assert!(numbers.len() == 1 + MOST.len() && numbers[0] >= 800, "{printed}");
    for ((call, most), deepest) in MOST.iter().zip(&numbers[1..]) {
        println!("{call}: at most {deepest} bytes of stack over {} sheets", numbers[0]);
        // the largest sheet wants a scratch: less than that would be a measure that missed it
        assert!(*deepest > most / 4 && deepest < most, "{call} takes {deepest} bytes");
    }
}
