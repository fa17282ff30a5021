//! Odd bytes: streams of no byte and of one, a byte of each value at each
//! place, long ones, and buffers of any length.

use crate::{read, Pair};
use reference::examples::streams::{DEFAULT, KINDS, RELATIONSHIP};
use zombirels::package::{PackageBuf, OVERHEAD};

#[test]
fn no_byte_and_one() {
    let mut pair = Pair::start(100);
    for kind in &KINDS {
        assert_eq!(pair.read(kind, b""), 19);
        for byte in 0..=255 {
            assert_eq!(pair.read(kind, &[byte]), 19);
            assert_eq!(pair.read(kind, &[b'<', byte]), 19);
        }
    }
}

/// A byte of each value in place of each byte of a short stream, and before it.
#[test]
fn every_byte_at_every_place() {
    let mut pair = Pair::start(100);
    for (kind, marked) in [
        (DEFAULT, &b"$<$e<p:a b=\"&lt;\">c</p:a><!--d-->$>\n"[..]),
        (RELATIONSHIP, b"<$r $n>$(<p:a/>$)\t<!-- - -->$>"),
    ] {
        let stream = kind.stream(marked);
        let mut accepted = 0;
        for at in 0..stream.len() {
            for byte in 0..=255 {
                let mut changed = stream.clone();
                changed[at] = byte;
                pair.restart(100);
                accepted += usize::from(pair.read(&kind, &changed) == 0);
                changed[at] = stream[at];
                changed.insert(at, byte);
                pair.restart(100);
                accepted += usize::from(pair.read(&kind, &changed) == 0);
            }
        }
        println!("{}: {accepted} accepted", kind.root);
        assert!(accepted > stream.len());
    }
}

/// Long names, values, comments, texts and many attributes.
#[test]
fn long_streams() {
    let mut pair = Pair::start(100);
    let long = "x".repeat(100_000);
    let attributes: String = (0..1000).map(|i| format!(" a{i}:b='{i}'")).collect();
    for kind in &KINDS {
        for content in [
            format!("<p:{long}/>"),
            format!("<{long}:p></{long}:p>"),
            format!("<p:a {long}='{long}'>{long}</p:a>"),
            format!("<!--{long}-->"),
            " \t\r\n".repeat(50_000),
            format!("<p:a{attributes}/>"),
            format!("<p:a{}/>", " ".repeat(100_000)),
            format!("<p:a b='{}'/>", "&amp;".repeat(30_000)),
            "<p:a/><!-- -->".repeat(10_000),
        ] {
            pair.restart(100);
            assert_eq!(pair.content(kind, &content), 0);
            assert_eq!(pair.content(kind, format!("{content}$e")), 0);
            assert_eq!(pair.content(kind, format!("{content}<x/>")), 19);
        }
        let twice = format!("<p:a{attributes} a7:b=''/>");
        assert_eq!(pair.content(kind, twice), 19);
    }
}

/// On a buffer of any length that is no package, 1, before all else.
#[test]
fn buffers_of_any_length() {
    let types = DEFAULT.stream(b"$<$e$>");
    let links = RELATIONSHIP.stream(b"$<$e$>");
    let started = PackageBuf::start(0).expect("a capacity").into_bytes();
    for length in (0..200)
        .chain((200..OVERHEAD).step_by(997))
        .chain([OVERHEAD - 1])
    {
        for bytes in [
            vec![0; length],
            vec![255; length],
            started[..length].to_vec(),
        ] {
            for (types, links) in [(&types[..], &links[..]), (b"", b""), (b"<", b"<")] {
                let mut bytes = bytes.clone();
                assert_eq!(read(&mut bytes, None, types), 1);
                for source in [&b"/"[..], b"", b"a", b"/_rels/.rels"] {
                    assert_eq!(read(&mut bytes, Some(source), links), 1);
                }
            }
        }
    }
    let mut bytes = started;
    assert_eq!(read(&mut bytes, None, &types), 15);
    assert_eq!(read(&mut bytes, Some(b"/"), &links), 15);
    assert_eq!(read(&mut bytes, None, b""), 19);
}
