//! Listings: parts of pieces, their types, their order.

use crate::corpus::Corpus;
use crate::support::show;

/// Every other letter in capitals.
fn mixed_case(text: &str) -> String {
    let flip = |(at, letter): (usize, char)| match at % 2 {
        0 => letter.to_ascii_uppercase(),
        _ => letter,
    };
    text.chars().enumerate().map(flip).collect()
}

#[test]
fn pieces() {
    let mut corpus = Corpus::new("pieces");
    let lines = [
        "P /Tile/[0].piece ab",
        "P /tile/[1].PIECE cde",
        "P /TILE/[2].piece ",
        "P /tILE/[3].LaSt.PiEcE f",
    ];
    // every order, and L behind every line
    for order in 0..24 {
        let mut left = lines.to_vec();
        let mut input = String::new();
        for choices in (1..=4).rev() {
            let line = left.remove(order / [1, 1, 2, 6][choices - 1] % choices);
            input += &format!("{line}\nL\n");
        }
        corpus.check(&input);
        corpus.check(input.replace('\n', "\nX /tile/[0].piece\nL\nP /Tile/[0].piece x\n"));
    }
    // without each one, and beside what disagrees with them
    for missing in 0..4 {
        let mut left = lines.to_vec();
        left.remove(missing);
        let all = left.join("\n");
        corpus.check(format!("{all}\nL\n"));
        for odd in [
            "P /tile x",
            "P /tile/[0].last.piece x",
            "P /tile/[4].piece x",
            "P /tile/[4].last.piece x",
            "P /tile/[2].last.piece x",
            "P /tile/[01].piece x",
            "P /tile/[10000].piece x",
            "P /tile/[9999].piece x",
            "P /tile/a x",
            "X /tile/[3].piece",
            "X /tile",
        ] {
            corpus.check(format!("{odd}\n{all}\n{odd}\n{}\nL\n", lines[missing]));
        }
    }
    let long = format!("/{}", "n".repeat(254));
    corpus.check(format!(
        "P {long}/[0].piece a\nP {long}/[1].last.piece b\nP {long}x c\nL\n"
    ));
    corpus.require(90, &["  0", "  6", " 10", " 11", " 12", " 13", "row"]);
}

#[test]
fn types() {
    let mut corpus = Corpus::new("types");
    let parts = "P /a.xml 1\nP /B.XML 22\nP /c.tif.xml 333\nP /d 4444\nP /e. 5\nP /f.TIFF/g \n\
        P /h.x/[0].last.piece 6\nP /i.y/[0].piece 7\n";
    let types = [
        "D xml text/xml",
        "D XML text/other",
        "D tif image/tiff",
        "D x image/x",
        "D y image/y",
        "D tiff image/tiff",
        "O /b.xml text/b",
        "O /D text/d",
        "O /H.x text/h",
        "O /i.y text/i",
        "O /nobody text/n",
        "O /h.x/[0].last.piece text/p",
    ];
    for line in types {
        corpus.check(format!("{parts}{line}\nL\n"));
        corpus.check(format!("{line}\n{parts}L\n"));
    }
    let all = types.join("\n");
    corpus.check(format!("{all}\nL\n{parts}L\nX /a.xml\nX /d\nL\n"));
    let backwards: Vec<&str> = types.into_iter().rev().collect();
    corpus.check(format!("{parts}{}\nL\n", backwards.join("\n")));
    for length in 1..=32 {
        let extension = "e".repeat(length);
        corpus.check(format!(
            "D {extension} a/{}\nP /a.{} \nL\n",
            "b".repeat(4 * length),
            mixed_case(&extension)
        ));
    }
    corpus.require(55, &["  0", "  4", "  7", " 10", "row"]);
}

/// Types with parameters, which are taken and listed as given.
#[rustfmt::skip]
const TAKEN: &[&[u8]] = &[
    b"image/tiff;page=2", b"Image/TIFF;Page=2;PAGE=2", b"a/b;c=&", b"a/b;c=d;c=d;e=f", b"a/b;!#$%&'*+-.^_`|~=!#$%&'*+-.^_`|~",
];
/// And such that are refused.
#[rustfmt::skip]
const REFUSED: &[&[u8]] = &[
    b"a/b;", b"a/b;;c=d", b"a/b;c=d;", b"a/b;c", b"a/b;=d", b"a/b;c=", b"a/b;c=d=e", b"a/b;c=d/e", b"a/b;c=\"d\"", b"a/b;c=\"\"",
    b"a/b;\tc=d", b"a/b;c=d\r", b"a/b;c=\0", b"a/b;c=\x80", b"a/b;c=\xC3\xA9", b"a;c=d/b", b";a/b", b"a/b/c;d=e",
];
/// A space makes another field, and a line with three is unreadable.
const SPACED: &[&[u8]] = &[
    b"a/b; c=d",
    b"a/b ;c=d",
    b"a/b;c= d",
    b"a/b;c=\"d e\"",
    b"a/b;c=d ",
];

#[test]
fn parameters() {
    let mut corpus = Corpus::new("parameters");
    let mut check = |media_type: &[u8], number: &[u8], listed: &[u8]| {
        let lines: [&[u8]; 3] = [b"P /a.tif x\nP /B \nD TIF ", b"\nO /b ", b"\nL\n"];
        let numbers: [&[u8]; 3] = [b"  0\n  0\n", b"\n", b"\n"];
        let rows: [&[u8]; 3] = [b"   1        1 /a.tif ", b"\n   1        0 /B ", b"\n"];
        let expected = [numbers.join(number), rows.join(listed)].concat();
        let output = corpus.check(lines.join(media_type));
        assert!(
            output == expected,
            "{}: {}",
            show(media_type),
            show(&output)
        );
    };
    let longest = [&b"a/b"[..], &b";c=&".repeat(31)].concat();
    for media_type in TAKEN.iter().chain(&[&longest[..]]) {
        check(media_type, b"  0", media_type);
    }
    let too_long = [&longest[..], b"x"].concat();
    for media_type in REFUSED.iter().chain(&[&too_long[..]]) {
        check(media_type, b"  7", b"-");
    }
    for media_type in SPACED {
        check(media_type, b" 16", b"-");
    }
    corpus.require(30, &["  0", "  7", " 16", "row", "row;"]);
}

/// Names in folded order, whatever order they came in.
#[test]
fn listings() {
    let mut corpus = Corpus::new("listings");
    let names = [
        "/b", "/B-c", "/a-b", "/A.b", "/a", "/_", "/Z", "/[", "/~", "/é", "/É", "/z%20", "/Z%2a",
        "/aa", "/0", "/-",
    ];
    for first in 0..names.len() {
        let (end, begin) = names.split_at(first);
        let lines: String = begin
            .iter()
            .chain(end)
            .map(|name| format!("P {name} {name}\n"))
            .collect();
        corpus.check(format!("{lines}L\nX {}\nL\n", names[first]));
    }
    // listings of several hundred KiB
    let segment = "n".repeat(90);
    let parts: String = (0..256)
        .map(|i| format!("P /{segment}{:03} {}\n", 251 * i % 256, "x".repeat(i % 20)))
        .collect();
    for times in [1, 2, 3, 10] {
        corpus.check(parts.clone() + &"L\n".repeat(times));
    }
    corpus.require(20, &["  0", "  6", "row"]);
}
