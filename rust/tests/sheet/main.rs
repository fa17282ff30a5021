//! The program `sheet` beside the second implementation's: the same input must
//! give the same output, byte for byte.
//!
//! `rt run` in crates/sheet makes the program; ZOMBIRELS_SHEET may name another
//! file. ZOMBIRELS_INPUTS sets how many random inputs there are.

mod corpus;
mod limits;
mod lines;
mod listings;
mod random;
mod readme;
#[path = "../support/mod.rs"]
mod support;

use corpus::Corpus;
use std::fs;
use std::path::Path;

/// The package's capacity, and the greatest length of a line.
const CAPACITY: usize = 30_000;
const LINE_MAX: usize = 1024;

/// What the program reads at once.
const READ: usize = 65_536;

/// A line that puts an item, of so many bytes without its line feed.
fn put_line(name: &str, length: usize) -> String {
    let line = format!("P {name} ");
    let content = length.checked_sub(line.len()).expect("room for the name");
    line + &"x".repeat(content)
}

/// Lines that put items until their charge is that number.
fn filled(charge: usize) -> String {
    const MOST: usize = 1010;
    let mut lines = String::new();
    let mut left = charge;
    for number in 0.. {
        if left == 0 {
            break;
        }
        let name = format!("/t{number:02}");
        // what is left behind must have room for a name
        let most = if left < MOST + 8 { left } else { MOST };
        let content = "x".repeat(most - name.len());
        lines += &format!("P {name} {content}\n");
        left -= most;
    }
    lines
}

#[test]
fn example() {
    let input = "P /a.xml hello\nP /B/[0].piece abc\nD XML text/xml\nP /b/[1].LAST.piece de\nL\n";
    let printed = "  0\n  0\n  0\n  0\n   1        5 /a.xml text/xml\n   2        5 /B -\n";
    let mut corpus = Corpus::new("example");
    assert_eq!(corpus.check(input), printed.as_bytes());
    assert_eq!(corpus.check(input.trim_end()), printed.as_bytes());
    corpus.require(2, &["  0", "row"]);
}

#[test]
fn samples() {
    let folder = Path::new(env!("CARGO_MANIFEST_DIR")).join("../samples");
    let read = |name: &str| fs::read(folder.join(name)).expect("the sample");
    let mut corpus = Corpus::new("samples");
    let output = corpus.check(read("slide.sheet"));
    let expected = read("slide.out");
    assert_eq!(
        String::from_utf8_lossy(&output),
        String::from_utf8_lossy(&expected)
    );
    corpus.require(1, &["  0", "row"]);
}
