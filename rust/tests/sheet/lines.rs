//! Lines of all lengths, with all bytes, at all places of the input.

use crate::corpus::{Corpus, Feed};
use crate::{filled, put_line, CAPACITY, LINE_MAX, READ};

#[test]
fn lengths_of_lines() {
    let mut corpus = Corpus::new("lengths of lines");
    let far = [2 * LINE_MAX, READ - 1, READ, READ + 1, 100_000, 300_000];
    for length in (LINE_MAX - 2..=LINE_MAX + 2).chain(far) {
        let line = put_line("/a", length);
        corpus.check(format!("{line}\nL\n"));
        corpus.check(format!("L\n{line}\n"));
        corpus.check(&line);
        corpus.check(format!("P /b x\n{line}\n{line}\nX /a\nL\n"));
        // too long as it may be, it holds neither a line feed nor a command
        corpus.check("L".repeat(length));
        corpus.check(" ".repeat(length) + "\nL\n");
        // the line feed is no part of the line, a CR is
        corpus.check(format!("{line}\r\nL\r\nL\n"));
    }
    let name = format!("/{}", "n".repeat(LINE_MAX - 3));
    for line in [
        format!("X {name}"),
        format!("X {name}n"),
        format!("O {} t/t", &name[..LINE_MAX - 6]),
        format!("D {} t/t", &name[1..LINE_MAX - 6]),
        format!("D x t/{}", &name[1..LINE_MAX - 5]),
    ] {
        corpus.check(format!("{line}\n"));
        corpus.check(format!("{line}x\nL"));
    }
    corpus.require(80, &["  0", " 16", "row"]);
}

#[test]
fn ends_of_input() {
    let mut corpus = Corpus::new("ends of input");
    for input in [
        "",
        "\n",
        "\n\n",
        "\n\n\n\n\n\n\n",
        "L",
        "L\n",
        "L\n\n",
        "\nL",
        "P /a x",
        "P /a x\nL",
        "P /a x\nL\n",
        "P /a x\n\nL\n\n",
        "P /a x\n L",
        "X",
        " ",
        "P /a ",
        "P /a \nL",
    ] {
        corpus.check(input);
    }
    for count in [READ - 1, READ, READ + 1, 200_000] {
        corpus.check("\n".repeat(count));
    }
    corpus.require(20, &["  0", " 16", "row"]);
}

/// Lines with too many and too few fields, with odd letters and odd bytes.
#[rustfmt::skip]
const LINES: &[&[u8]] = &[
    b"P /a ", b"P /a", b"P /a  ", b"P /a x y z", b"P /a  x", b"P  /a x", b"P /a x ", b" P /a x", b"P", b"P ", b"P  ", b"P   x",
    b"X /a", b"X /a ", b"X /a x", b"X  /a", b" X /a", b"X", b"X ", b"X  ", b"XX /a", b"X/a", b"D x t/t", b"D x t/t ", b"D x  t/t",
    b"D  x t/t", b"D x t/t x", b"D x", b"D x ", b"D ", b"D", b"D  t/t", b"O /a t/t", b"O /a t/t ", b"O /a  t/t", b"O  /a t/t",
    b"O /a t/t x", b"O /a", b"O /a ", b"O ", b"O", b"L ", b" L", b"L L", b"LL", b"l", b"p /a x", b"x /a", b"d x t/t", b"o /a t/t",
    b"Q /a x", b"PX /a x", b"P\t/a x", b"P /a\tx", b"P /a\tx y", b"# a remark", b"0", b"\0", b"L\0", b"\0L", b"P /a \0\0\0",
    b"P /a\0 x", b"P\0/a x", b"P /\0 x", b"X \0", b"D \0 t/t", b"D x t/\0", b"\xFF", b"L\xFF", b"P /a \xFF\xFE\x80", b"P /\xFF x",
    b"P \xFF x", b"X /\xFF", b"D \xFF t/t", b"O /\xFF t/t", b"P /\xC3\xA9 x", b"P /\xC3 x", b"P /\xE2\x82\xAC.tif \xE2\x82", b"L\r",
    b"P /a x\r", b"P /a \r", b"P /a\r x", b"X /a\r", b"D x t/t\r", b"O /a t/t\r", b"\r", b"\r\r", b"P /a x\rL", b"P /a/[0].piece",
    b"P /a/[0].last.piece ", b"P /a/[x] y", b"P /_rels/.rels y", b"P a x", b"P / x", b"P /a. x", b"P /a%41 x", b"D .x t/t", b"D x t",
];

#[test]
fn fields() {
    let mut corpus = Corpus::new("fields");
    for line in LINES {
        corpus.check([line, &b"\nL\n"[..]].concat());
        // beside what is held, and as the last line
        let held: &[u8] = b"P /a 1\nD x t/u\nO /b t/v\nP /c.x 22\nP /B \n";
        corpus.check([held, line, b"\nL\n", line].concat());
    }
    let all = LINES.join(&b'\n');
    corpus.check(&all);
    corpus.check([&all, &all[..], b"\nL\n"].join(&b'\n'));
    // any byte for a letter, and any byte for the space behind one
    for byte in (0..=255u8).filter(|&byte| byte != b'\n') {
        let pieces: [&[u8]; 4] = [b"", b" /a t/t\nL\n", b"\nP /b t/t\nP", b"/c t/t\nL\n"];
        corpus.check(pieces.join(&byte));
    }
    corpus.require(
        400,
        &[
            "  0", "  4", "  5", "  6", "  7", " 10", " 12", " 13", " 16", "row",
        ],
    );
}

/// Lines that lie across the end of what is read at once, at every place.
#[test]
fn read_boundaries() {
    let mut corpus = Corpus::new("read boundaries");
    let line = "P /t/[1].last.piece 12";
    let around = format!("P /t/[0].piece 34\n{line}\nD tif image/tiff\nP /a.TIF tile\nL\n");
    let unheld = "X /nobody/here.tif\n";
    let filler = |length: usize| {
        let lines = unheld.repeat(length / unheld.len());
        // the first line is as long as is needed
        "P".repeat(length % unheld.len()) + &lines
    };
    for boundary in [READ, 2 * READ] {
        for before in 0..around.len() {
            corpus.check(filler(boundary - before) + &around);
        }
    }
    for length in [READ - 1, READ, READ + 1, 3 * READ, 400_000] {
        corpus.check(filler(length));
        corpus.check(filler(length) + "L");
        let puts = filler(length - line.len()) + line;
        corpus.check(&puts);
        corpus.check(puts + "\n");
    }
    // a line of 1,023 to 1,026 bytes and its line feed beside the boundary
    for length in LINE_MAX - 1..=LINE_MAX + 2 {
        let long = put_line("/long", length);
        for behind in [0, 1, 2, 3, 1000, LINE_MAX - 1, LINE_MAX, LINE_MAX + 1] {
            corpus.check(filler(READ - length + behind) + &long + "\nL\n");
            corpus.check(filler(READ - length - behind) + &long + "\nL");
        }
    }
    // a line that is longer than what is read at once
    for length in [READ, 2 * READ, 2 * READ + 1] {
        corpus.check(put_line("/long", length) + "\nP /a x\nL\n");
    }
    corpus.require(230, &["  0", " 13", " 16", "row"]);
}

/// A pipe hands over what has come, be it less than was asked for.
#[test]
fn short_reads() {
    let mut corpus = Corpus::new("short reads");
    let example =
        "P /a.xml hello\nP /B/[0].piece abc\nD XML text/xml\nP /b/[1].LAST.piece de\nL\n\nL";
    let long = put_line("/a", LINE_MAX);
    let lines = format!("{long}\n{long}x\nL\n{example}\n");
    for chunk in [1, 2, 3, 7, 1000, 1023, 1024, 1025, READ] {
        corpus.check_by(Feed::Pipe(chunk), example.as_bytes());
        corpus.check_by(Feed::Pipe(chunk), lines.as_bytes());
        corpus.check_by(Feed::Pipe(chunk), b"");
        corpus.check_by(Feed::Pipe(chunk), b"L\n\n");
    }
    let full = filled(CAPACITY) + &"P /x 1\nL\n".repeat(20);
    for chunk in [7, 1000, 4096, READ - 1, READ, READ + 1, 1 << 20] {
        corpus.check_by(Feed::Pipe(chunk), full.as_bytes());
        let longer = full.repeat(3);
        corpus.check_by(Feed::Pipe(chunk.max(1000)), longer.as_bytes());
    }
    corpus.require(50, &["  0", " 15", " 16", "row"]);
}
