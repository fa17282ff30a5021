//! Groups of pieces whose names are spelled in any case, beside groups that
//! begin alike.

use crate::support::calls::Call;
use crate::support::pieces::piece;
use crate::support::Random;
use crate::{buffer, drop, find, put, spellings, view, Pair};
use zombirels::script::Code;

/// Part names that begin alike, none derivable from another; their rows lie
/// side by side.
const NAMES: [&[u8]; 10] = [
    b"/a/b", b"/a/b!", b"/a/b-c", b"/a/b0", b"/a/bZ", b"/a/b@", b"/a/bb", b"/a/bc", b"/a/b_",
    b"/a/b~",
];

fn read(name: &[u8]) -> Call {
    Call::new(Code::ReadPart, &[name]).with_output(2000)
}

/// Each part in pieces, of another number, each piece spelled in another case
/// and all put in any order: each is found, and read in either case.
#[test]
fn groups_side_by_side() {
    let mut random = Random::new("groups side by side");
    let counts = |i: usize| 1 + (i * 7 + 3) % 12;
    let mut pieces = Vec::new();
    for (i, name) in NAMES.iter().enumerate() {
        for k in 0..counts(i) {
            pieces.push(random.flip_case(&piece(name, k, counts(i))));
        }
    }
    for i in (1..pieces.len()).rev() {
        pieces.swap(i, random.below(i + 1));
    }
    let mut buffer = buffer(10_000);
    let mut pair = Pair::start(&mut buffer);
    for piece in &pieces {
        pair.expect(&put(piece), 0);
    }
    for piece in pieces.iter().flat_map(|piece| spellings(piece)) {
        pair.expect(&put(&piece), 10);
        pair.expect(&find(&piece), 0);
        pair.make(&view(&piece)).expect("a view");
    }
    pair.check_parts();
    for (i, name) in NAMES.iter().enumerate() {
        let more = piece(name, counts(i), counts(i) + 2);
        for name in spellings(name) {
            pair.expect(&read(&name), 0);
            pair.expect(&put(&name), 12);
            pair.expect(&find(&name), 13);
        }
        for more in spellings(&more) {
            pair.expect(&find(&more), 13);
            pair.expect(&put(&more), 12);
        }
    }
    // without its first piece a group is no part, the others still are
    for (i, name) in NAMES.iter().enumerate() {
        let first = random.flip_case(&piece(name, 0, counts(i)));
        pair.expect(&drop(&first), 0);
        for (j, name) in NAMES.iter().enumerate() {
            let number = if j <= i { 13 } else { 0 };
            pair.expect(&read(&random.flip_case(name)), number);
        }
        pair.check_parts();
    }
}

/// Cut and joined in either case, beside names that begin alike.
#[test]
fn cut_and_joined() {
    let mut random = Random::new("cut and joined");
    let mut buffer = buffer(20_000);
    let mut pair = Pair::start(&mut buffer);
    for name in NAMES {
        pair.expect(&put(&random.flip_case(name)), 0);
    }
    for round in 0..4 {
        for name in NAMES {
            let cut = Call::new(Code::CutPart, &[&spellings(name)[round]]).with_number(7);
            pair.expect(&cut, 0);
            pair.expect(&cut, 18);
            for k in 0..7 {
                for name in spellings(&piece(name, k, 7)) {
                    pair.expect(&find(&name), 0);
                }
            }
            pair.check_parts();
        }
        for name in NAMES {
            let join = Call::new(Code::JoinPart, &[&random.flip_case(name)]);
            pair.expect(&join, 0);
            pair.expect(&join, 18);
            pair.check_parts();
        }
    }
}

/// The mark of a last piece counts, in either case.
#[test]
fn last_marks() {
    let mut buffer = buffer(1000);
    let mut pair = Pair::start(&mut buffer);
    for (call, number) in [
        (put(b"/T3/[0].Piece"), 0),
        (put(b"/t3/[1].LAST.piece"), 0),
        (find(b"/t3/[1].piece"), 13),
        (find(b"/T3/[1].Last.PIECE"), 0),
        (find(b"/t3/[0].last.piece"), 13),
        (drop(b"/T3/[1].PIECE"), 13),
        (put(b"/T3/[1].PIECE"), 10),
        (put(b"/T3/[0].last.PIECE"), 10),
        (put(b"/T3/[2].piece"), 12),
        (drop(b"/T3/[1].last.PIECE"), 0),
        (put(b"/t3/[2].Last.piece"), 0),
        (read(b"/t3"), 13),
        (put(b"/T3/[1].PIECE"), 0),
        (read(b"/t3"), 0),
        (read(b"/T3"), 0),
    ] {
        pair.expect(&call, number);
    }
    pair.check_parts();
}
