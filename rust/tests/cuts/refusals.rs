//! Each refusal, in its order; every byte stays as it was.

use crate::support::numbers;
use crate::{buffer, Pair};
use zombirels::package::{Package, OVERHEAD};

/// A package whose charge is its capacity: a whole part, one in pieces, and
/// pieces that are no part yet.
fn full(buffer: &mut [u8]) -> Pair<'_> {
    let mut pair = Pair::start(buffer);
    pair.put(b"/whole", b"abc");
    pair.put(b"/Pieces/[1].last.piece", b"e");
    pair.put(b"/pieces/[0].piece", b"d");
    pair.put(b"/open/[0].piece", b"f");
    pair
}

const FULL: usize = (6 + 3) + (22 + 1) + (17 + 1) + (15 + 1);

/// What is no part name.
#[rustfmt::skip]
const NO_NAMES: [&[u8]; 12] = [
    b"", b"/", b"whole", b"/whole/", b"/whole.", b"/a%2fb", b"/%41", b"/\xC3", b"/whole/[0].piece", b"/pieces/[0].piece",
    b"/pieces/[1].last.piece", b"/open/[x]",
];

/// Part names that no items make, or not yet.
const NO_PARTS: [&[u8]; 6] = [
    b"/open",
    b"/none",
    b"/whol",
    b"/whole/a",
    b"/_rels/.rels",
    b"/x/_RELS/y.rels",
];

const NO_COUNTS: [u64; 7] = [0, 257, 1 << 16, 1 << 32, (1 << 32) + 1, 1 << 63, u64::MAX];

#[test]
fn cuts() {
    let mut buffer = buffer(FULL);
    let mut pair = full(&mut buffer);
    assert_eq!(pair.charge(), FULL);
    for count in NO_COUNTS.into_iter().chain([1, 2, 256]) {
        for name in NO_NAMES {
            assert_eq!(pair.cut(name, count), Err(4));
        }
        for name in NO_PARTS {
            assert_eq!(pair.cut(name, count), Err(13));
        }
        assert_eq!(pair.cut(b"/pieces", count), Err(18));
        assert_eq!(pair.cut(b"/PIECES", count), Err(18));
        let last = if NO_COUNTS.contains(&count) { 17 } else { 15 };
        assert_eq!(pair.cut(b"/whole", count), Err(last));
        assert_eq!(pair.cut(b"/Whole", count), Err(last));
    }
    pair.check();
}

/// A join finds room in a package without any.
#[test]
fn joins() {
    let mut buffer = buffer(FULL);
    let mut pair = full(&mut buffer);
    for name in NO_NAMES {
        assert_eq!(pair.join(name), Err(4));
    }
    for name in NO_PARTS {
        assert_eq!(pair.join(name), Err(13));
    }
    assert_eq!(pair.join(b"/whole"), Err(18));
    assert_eq!(pair.join(b"/WHOLE"), Err(18));
    pair.check();
    assert_eq!(pair.join(b"/PIECES"), Ok((0, 0)));
    assert_eq!(pair.join(b"/pieces"), Err(18));
    pair.check();
}

/// A buffer that is no package gives 1 before all else.
#[test]
fn no_package() {
    for length in [0, 1, 100, OVERHEAD - 1, OVERHEAD, OVERHEAD + 5000] {
        let mut buffer = vec![0; length];
        let package = Package::open_mut(&mut buffer);
        let names = [&b"/a"[..], b"", b"/_rels/.rels"];
        for name in names {
            for count in [0, 2, 257] {
                let cut = package.cut_part(name, count).map_err(numbers);
                assert_eq!(cut, Err((1, 0)));
            }
            assert_eq!(package.join_part(name).map_err(numbers), Err((1, 0)));
        }
        assert!(buffer.iter().all(|&byte| byte == 0));
    }
}

/// The set of items is full: 15 comes behind 13, 18 and 17 there, too.
#[test]
fn no_items_left() {
    let mut buffer = buffer(20_000);
    let mut pair = full(&mut buffer);
    for i in 4..256 {
        pair.put(format!("/t{i}").as_bytes(), b"");
    }
    for (name, count, number) in [
        (&b"/open"[..], 0, 13),
        (b"/pieces", 0, 18),
        (b"/whole", 0, 17),
        (b"/whole", 257, 17),
        (b"/whole", 2, 15),
        (b"/t9", 256, 15),
    ] {
        assert_eq!(pair.cut(name, count), Err(number));
    }
    assert_eq!(pair.cut(b"/whole", 1), Ok((3, 0)));
    assert_eq!(pair.join(b"/pieces"), Ok((0, 0)));
    assert_eq!(pair.cut(b"/t9", 2), Ok((0, 0)));
    assert_eq!(pair.cut(b"/t10", 2), Err(15));
    pair.check();
}
