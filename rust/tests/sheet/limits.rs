//! The limits of the package, by lines.

use crate::corpus::Corpus;
use crate::{filled, CAPACITY};

#[test]
fn charge_at_the_limit() {
    let mut corpus = Corpus::new("charge at the limit");
    for charge in CAPACITY - 6..=CAPACITY {
        for line in [
            "P /x ",
            "P /x 1",
            "P /x 12",
            "D x t/t",
            "O /x t/t",
            "P /x/[0].last.piece 1",
        ] {
            corpus.check(format!("{}{line}\n{line}\nL\n", filled(charge)));
        }
    }
    let full = filled(CAPACITY);
    // freed charge is usable again, and nothing is held of what was refused
    corpus.check(format!(
        "{full}P /x \nX /t03\nP /x {}\nP /y \nL\n",
        "x".repeat(1008)
    ));
    corpus.check(format!("{full}P /x \nX /T03\nP /t03 1\nD x t/t\nL\n"));
    corpus.check(format!(
        "{full}P /t03 \nP /T03/[0].piece \nP /t03/x \nP /t03/[1] \nL\n"
    ));
    corpus.check(filled(CAPACITY + 1) + "L\n");
    corpus.require(40, &["  0", " 10", " 11", " 12", " 15", "row"]);
}

#[test]
fn sets_at_their_limits() {
    let mut corpus = Corpus::new("sets at their limits");
    let wholes =
        |count: usize| -> String { (0..count).map(|i| format!("P /i{i:03}.T{i} \n")).collect() };
    let pieces = |count: usize| -> String {
        let mark = |i| if i + 1 == count { ".last" } else { "" };
        (0..count)
            .map(|i| format!("P /p/[{i}]{}.piece \n", mark(i)))
            .collect()
    };
    let end =
        "P /x \nP /i000.t0 1\nP /i000.t0/a 1\nP /p/[255].piece \nL\nX /i000.t0\nP /x \nP /y \nL\n";
    for count in [0, 1, 254, 255, 256, 257, 300] {
        corpus.check(wholes(count) + end);
        corpus.check(pieces(count) + end);
    }
    let defaults =
        |count: usize| -> String { (0..count).map(|i| format!("D T{i} a/b{i}\n")).collect() };
    let overrides = |count: usize| -> String {
        (0..count)
            .map(|i| format!("O /I{i:03}.t{i} c/d{i}\n"))
            .collect()
    };
    for count in [1, 63, 64, 65, 70] {
        corpus.check(wholes(80) + &defaults(count) + "D t0 x/y\nL\n");
        corpus.check(overrides(count) + &wholes(80) + "O /i000.t0 x/y\nL\n");
        corpus.check(wholes(80) + &overrides(count) + &defaults(80) + "L\nL\nL\n");
    }
    corpus.require(29, &["  0", " 10", " 11", " 12", " 15", "row"]);
}
