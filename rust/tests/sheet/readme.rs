//! The lines that README.md shows.

use crate::corpus::Corpus;
use std::fs;
use std::path::Path;

fn readme() -> String {
    let path = Path::new(env!("CARGO_MANIFEST_DIR")).join("../README.md");
    fs::read_to_string(path).expect("README.md")
}

/// The cells of a table's row that begins with this one.
fn row(readme: &str, first: &str) -> Vec<String> {
    let start = format!("| {first} |");
    let line = readme.lines().find(|line| line.starts_with(&start));
    let line = line.expect("the row").replace("\\|", "\0");
    let cells = line.trim_matches('|').split('|');
    cells.map(|cell| cell.trim().replace('\0', "|")).collect()
}

/// The texts in a cell that stand between backticks.
fn texts(cell: &str) -> impl Iterator<Item = &str> {
    cell.split('`').skip(1).step_by(2)
}

/// What the program answers to a line by itself.
fn answer(corpus: &mut Corpus, line: &str) -> u64 {
    let output = String::from_utf8(corpus.check(line)).expect("text");
    output.trim().parse().expect("a number")
}

#[test]
fn commands() {
    let forms = [
        "P name content",
        "X name",
        "D extension type",
        "O name type",
        "L",
    ];
    let rows = forms.map(|form| row(&readme(), &format!("`{form}`")));
    let lines = rows.map(|row| texts(&row[2]).next().expect("an example").to_string());
    let mut corpus = Corpus::new("README's commands");
    assert_eq!(corpus.check(lines.join("\n")), b"  0\n  0\n  0\n  0\n");
}

#[test]
fn sheet() {
    let readme = readme();
    let (_, rest) = readme.split_once("This sheet\n\n```\n").expect("a sheet");
    let (sheet, rest) = rest.split_once("```\n\nprints\n\n```\n").expect("its end");
    let (printed, _) = rest.split_once("```").expect("what it prints");
    let mut corpus = Corpus::new("README's sheet");
    assert_eq!(corpus.check(sheet), printed.as_bytes());
}

/// What passes for each field, and what is refused by which number.
#[test]
fn fields() {
    let readme = readme();
    let mut corpus = Corpus::new("README's fields");
    let mut tried = 0;
    for (field, before, behind) in [
        ("part name", "P ", " x"),
        ("item name", "P ", " x"),
        ("*reserved*", "P ", " x"),
        ("extension", "D ", " a/b"),
        ("media type", "D x ", ""),
    ] {
        let row = row(&readme, field);
        let (number, refused) = row[3].split_once(": ").expect("a number");
        for (cell, number) in [(&row[2][..], "0"), (refused, number)] {
            for text in texts(cell) {
                let told = answer(&mut corpus, &format!("{before}{text}{behind}"));
                assert_eq!(told.to_string(), number, "{field} {text}");
                tried += 1;
            }
        }
    }
    assert!(tried >= 20, "{tried} tried");
}
