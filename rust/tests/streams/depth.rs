//! How deep elements stand in one another: 16 at most, the root being 1.

use crate::Pair;
use reference::examples::streams::{Kind, KINDS};

/// Elements that are passed over, one in the other so many times, with a text
/// in the middle.
fn nested(open: &str, close: &str, levels: usize, middle: &str) -> String {
    format!("{}{middle}{}", open.repeat(levels), close.repeat(levels))
}

/// What such a stream answers if its deepest element is at this depth.
fn right(depth: usize) -> u64 {
    if depth > 16 {
        20
    } else {
        0
    }
}

fn content(kind: &Kind, content: &str) -> u64 {
    Pair::start(100).content(kind, content)
}

/// By prefixed names, and by others within a prefixed one; in the root and in
/// an entry; as a tag pair and as an empty tag at the end.
#[test]
fn depths_15_to_18() {
    for kind in &KINDS {
        for depth in 2..=40 {
            let levels = depth - 1;
            for (open, close) in [
                ("<p:a>", "</p:a>"),
                ("<p:a >b<!--<c>-->", "&</p:a\n>"),
                ("<p:a b='&lt;'>", "</p:a>"),
            ] {
                let all = nested(open, close, levels, "");
                assert_eq!(content(kind, &all), right(depth), "{depth}: {all}");
                let empty = nested(open, close, levels - 1, "<q:b/>");
                assert_eq!(content(kind, &empty), right(depth), "{depth}: {empty}");
                let within = nested(open, close, levels, "<b c=''/>");
                assert_eq!(content(kind, &within), right(depth + 1), "{within}");
                let entry = format!("$({all}$)");
                assert_eq!(content(kind, &entry), right(depth + 1), "{entry}");
                let twice = format!("{all}$e{all}");
                assert_eq!(content(kind, &twice), right(depth), "{twice}");
            }
            let plain = format!("<p:a>{}</p:a>", nested("<b>", "</b>", levels - 1, "c"));
            assert_eq!(content(kind, &plain), right(depth), "{depth}: {plain}");
        }
    }
}

/// At depth 16 elements may stand beside one another, as many as there are.
#[test]
fn siblings() {
    for kind in &KINDS {
        for count in [1, 2, 17, 1000] {
            let beside = "<b/><c:d>e</c:d>".repeat(count);
            let flat = "<p:a/><p:b></p:b>".repeat(count);
            let deep = nested("<p:a>", "</p:a>", 14, &beside);
            assert_eq!(content(kind, &deep), 0);
            assert_eq!(content(kind, &flat), 0);
            assert_eq!(content(kind, &format!("{flat}{deep}$e{flat}")), 0);
            let deeper = nested("<p:a>", "</p:a>", 15, &beside);
            assert_eq!(content(kind, &deeper), 20);
        }
    }
}

/// Whichever comes first from left to right, the tag that is too deep or what
/// is malformed; both before what is wrong with values.
#[test]
fn which_comes_first() {
    let deep = "<p:a>".repeat(16);
    for kind in &KINDS {
        let bad = format!(
            "<{} {}/>",
            kind.element,
            kind.attributes.replace("=\"", "=\" ")
        );
        for (row, expected) in [
            (format!("{deep}<"), 20),
            (format!("<x/>{deep}"), 19),
            (format!("{deep}<x/>"), 20),
            (format!("{bad}{deep}"), 20),
            (format!("{bad}a{deep}"), 19),
            (format!("$e$e{deep}"), 20),
            (format!("$e$e{}<x/>", "<p:a/>".repeat(16)), 19),
            (format!("{}<", "<p:a>".repeat(15)), 19),
            (format!("{}<b", "<p:a>".repeat(15)), 20),
            (format!("{}<1", "<p:a>".repeat(15)), 19),
        ] {
            assert_eq!(content(kind, &row), expected, "{row}");
        }
    }
}
