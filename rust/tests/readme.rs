//! What README.md says to the authors of programs is so. (What it says of
//! sheets is tried in `tests/sheet`.)

use std::fs;
use std::path::Path;
use zombirels::Refusal;

fn read(path: &str) -> String {
    let root = Path::new(env!("CARGO_MANIFEST_DIR")).join("..");
    fs::read_to_string(root.join(path)).expect("a file of the repository")
}

/// The program in Rust is an example, which is built with the tests.
#[test]
fn program() {
    let example = read("rust/examples/first.rs");
    let (_, program) = example.split_once("\n\n").expect("a comment, a program");
    assert!(read("README.md").contains(&format!("```rust\n{program}```\n")));
}

/// Each number has its row, with the name that it has in C.
#[test]
fn refusals() {
    let (readme, header) = (read("README.md"), read("include/opc.h"));
    for number in 0.. {
        let start = format!("| {number} | `OPC_");
        let row = readme.lines().find_map(|line| line.strip_prefix(&start));
        let known = number == 0 || Refusal::from_number(number).is_some();
        assert_eq!(row.is_some(), known, "{number}");
        let Some(row) = row else { break };
        let name = row.split('`').next().expect("a name");
        let told = header.lines().any(|line| {
            let line = line.trim_start();
            line.strip_prefix(&format!("OPC_{name} = {number}"))
                .is_some_and(|rest| !rest.starts_with(|next: char| next.is_ascii_digit()))
        });
        assert!(told, "{name} {number}");
    }
}
