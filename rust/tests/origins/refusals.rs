//! Each refusal, in its order, with outputs that suffice and that do not.

use crate::{buffer, origin, Pair};
use zombirels::package::OVERHEAD;

/// What is no part name.
#[rustfmt::skip]
const NO_NAMES: [&[u8]; 13] = [
    b"", b"/", b"whole.x", b"/whole.x/", b"/whole.", b"/a%2fb", b"/%41", b"/\xC3", b"/whole.x/[0].piece", b"/pieces.x/[0].last.piece",
    b"/open.x/[0].piece", b"/open.x/[x]", b"//whole.x",
];

/// Part names that no items make, or not yet. Some have an Override, and
/// most a Default.
const NO_PARTS: [&[u8]; 8] = [
    b"/open.x",
    b"/OPEN.X",
    b"/named",
    b"/none",
    b"/none.x",
    b"/whole.x/a.x",
    b"/_rels/.rels",
    b"/x/_RELS/y.rels",
];

const LENGTHS: [usize; 6] = [0, 1, 2, 7, 8, 255];

/// A whole part, one in a piece, and a piece that is no part yet, with types.
fn typed(buffer: &mut [u8]) -> Pair<'_> {
    let items = ["/whole.x", "/pieces.x/[0].last.piece", "/open.x/[0].piece"];
    let overrides = ["/WHOLE.x", "/open.x", "/named", "/_rels/.rels"];
    Pair::with(buffer, &items, &["X", "rels"], &overrides)
}

#[test]
fn refusals_in_their_order() {
    let mut buffer = buffer(1000);
    let pair = typed(&mut buffer);
    for lent in LENGTHS {
        for name in NO_NAMES {
            assert_eq!(pair.origin(name, lent), Err((4, 0)));
        }
        for name in NO_PARTS {
            assert_eq!(pair.origin(name, lent), Err((13, 0)));
        }
        let expected = match lent {
            0..=7 => Err((3, 8)),
            _ => Ok((2, b"/WHOLE.x".to_vec())),
        };
        assert_eq!(pair.origin(b"/whole.x", lent), expected);
        let expected = match lent {
            0 => Err((3, 1)),
            _ => Ok((1, b"X".to_vec())),
        };
        assert_eq!(pair.origin(b"/pieces.x", lent), expected);
    }
}

/// A name that is a part by now, and one that has stopped being one.
#[test]
fn parts_come_and_go() {
    let mut buffer = buffer(1000);
    let mut pair = typed(&mut buffer);
    pair.put(b"/open.x/[1].last.piece");
    assert_eq!(pair.found("/OPEN.x"), (2, "/open.x".to_string()));
    pair.put(b"/Named");
    assert_eq!(pair.found("/NAMED"), (2, "/named".to_string()));
    for name in [&b"/open.x/[0].piece"[..], b"/named", b"/whole.x"] {
        pair.package.drop_item(name).expect("held");
        pair.ledger.drop_item(name).expect("held");
    }
    for name in [&b"/open.x"[..], b"/named", b"/whole.x"] {
        assert_eq!(pair.origin(name, 255), Err((13, 0)));
    }
}

/// An empty package, and a buffer that is none, which gives 1 before all else.
#[test]
fn no_package() {
    let mut started = buffer(0);
    let pair = Pair::start(&mut started);
    for lent in LENGTHS {
        assert_eq!(pair.origin(b"/a", lent), Err((13, 0)));
        assert_eq!(pair.origin(b"a", lent), Err((4, 0)));
    }
    for length in [0, 1, 100, OVERHEAD - 1, OVERHEAD, OVERHEAD + 5000] {
        for bytes in [vec![0; length], vec![255; length]] {
            for name in NO_NAMES.into_iter().chain(NO_PARTS) {
                for lent in [0, 255] {
                    assert_eq!(origin(&bytes, name, lent), Err((1, 0)));
                }
            }
        }
    }
}
