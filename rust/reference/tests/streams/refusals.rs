//! The calls that read streams: their refusals by hand, in their order.

use super::{held, number, started};
use reference::examples::streams::{DEFAULT, RELATIONSHIP};
use reference::ledger::Ledger;

/// Reads a types stream with that content. A refusal changes nothing.
fn types(ledger: &mut Ledger, content: &str) -> u64 {
    let stream = DEFAULT.stream(format!("$<{content}$>").as_bytes());
    let before = held(ledger);
    let answer = number(ledger.read_types(&stream));
    assert!(answer == 0 || held(ledger) == before, "{content}");
    answer
}

/// Reads a Relationships part with that content, too.
fn relationships(ledger: &mut Ledger, source: &str, content: &str) -> u64 {
    let stream = RELATIONSHIP.stream(format!("$<{content}$>").as_bytes());
    let before = held(ledger);
    let answer = number(ledger.read_relationships(source.as_bytes(), &stream));
    assert!(answer == 0 || held(ledger) == before, "{content}");
    answer
}

fn default(extension: &str, media_type: &str) -> String {
    format!("<Default Extension='{extension}' ContentType='{media_type}'/>")
}

/// An Override, the attribute that is judged last written first.
fn part(name: &str, media_type: &str) -> String {
    format!("<Override ContentType='{media_type}' PartName='{name}'/>")
}

/// A relationship, its attributes from the last to the first.
fn link(id: &str, kind: &str, mode: &str, target: &str) -> String {
    format!("<Relationship TargetMode='{mode}' Target='{target}' Type='{kind}' Id='{id}'/>")
}

/// The fields are judged in the order of a put, not in that of the attributes.
#[test]
fn fields_of_types() {
    let mut ledger = started(1000);
    for (content, expected) in [
        (default("", "a/b"), 7),
        (default("a.b", "a/b"), 7),
        (default("&lt;", "a/b"), 7),
        (default("a\tb", "a/b"), 7),
        (default("a\0", "a/b"), 7),
        (default("x", ""), 7),
        (default("x", " a/b"), 7),
        (default("x", "a/b\n"), 7),
        (part("", "a/b"), 4),
        (part("a", ""), 4),
        (part("/a/[0].piece", "a/b"), 4),
        (part("/a\n", "a/b"), 4),
        (part("/a", ""), 7),
        (part("/a", "&apos;"), 7),
        (part("/_rels/.rels", "a/b"), 0),
        (default("x&amp;", "a/&amp;&apos;"), 0),
    ] {
        assert_eq!(types(&mut ledger, &content), expected, "{content}");
    }
    let defaults: Vec<_> = ledger.defaults().collect();
    assert_eq!(defaults, [(&b"x&"[..], &b"a/&'"[..])]);
}

#[test]
fn fields_of_relationships() {
    let mut ledger = started(1000);
    for (content, expected) in [
        (link("", "", "?", ""), 8),
        (link("1", "t:", "Internal", ""), 8),
        (link("a", "t", "Internal", ""), 8),
        (link("a", "t:", "?", ""), 8),
        (link("a", "t:", "", "x"), 8),
        (link("a", "t:", "\tExternal", "x"), 8),
        (link("a", "t:", "Internal", ""), 9),
        (link("a", "t:", "Internal", "x?y"), 9),
        (link("a", "t:", "Internal", "x."), 9),
        (link("a", "t:", "Internal", "_rels/.rels"), 5),
        (link("a", "t:", "External", "&quot;"), 9),
        (link("a", "t:", "External", "x y"), 9),
        (link("a", "t:&amp;", "External", "?x&amp;y"), 0),
        (link("b", "t:", "Internal", "../x"), 0),
        (link("a", "t:", "Internal", "x"), 10),
    ] {
        let answer = relationships(&mut ledger, "/Source", &content);
        assert_eq!(answer, expected, "{content}");
    }
    let rows: Vec<_> = ledger.relationships().collect();
    let expected: [[&[u8]; 5]; 2] = [
        [b"/Source", b"a", b"t:&", &[1], b"?x&y"],
        [b"/Source", b"b", b"t:", &[0], b"../x"],
    ];
    assert_eq!(rows, expected);
}

/// 4 and 5 of the source, then 20 or 19, then the entries.
#[test]
fn the_source_comes_first() {
    let mut ledger = started(1000);
    let deep = "<p:a>".repeat(16);
    for (content, expected) in [
        ("<x/>", 19),
        (&deep, 20),
        (&link("", "", "", ""), 8),
        ("", 0),
    ] {
        for (source, refused) in [("", 4), ("x", 4), ("/x/", 4), ("/_rels/x.rels", 5)] {
            assert_eq!(relationships(&mut ledger, source, content), refused);
        }
        for source in ["/", "/x", "/not/held"] {
            assert_eq!(relationships(&mut ledger, source, content), expected);
        }
    }
    assert_eq!(number(ledger.read_relationships(b"//", b"")), 4);
    assert_eq!(number(ledger.read_relationships(b"/", b"")), 19);
    assert_eq!(number(ledger.read_types(b"")), 19);
}

/// The stream as a whole is judged before any of its values.
#[test]
fn the_stream_comes_before_its_entries() {
    let mut ledger = started(1000);
    let (bad, deep) = (default("", ""), "<p:a>".repeat(16));
    assert_eq!(types(&mut ledger, &bad), 7);
    assert_eq!(types(&mut ledger, &format!("{bad}<x/>")), 19);
    assert_eq!(types(&mut ledger, &format!("{bad}{deep}")), 20);
    assert_eq!(types(&mut ledger, &format!("{bad}<x/>{deep}")), 19);
    assert_eq!(types(&mut ledger, &format!("{bad}{deep}<x/>")), 20);
    let bad = link("a", "t:", "Neither", "x");
    assert_eq!(relationships(&mut ledger, "/", &format!("{bad}{deep}")), 20);
    assert_eq!(relationships(&mut ledger, "/", &format!("{bad}a")), 19);
}

/// The first entry that is refused gives the number; none is added.
#[test]
fn entries_in_their_order() {
    let mut ledger = started(10);
    let [good, other] = [default("a", "b/c"), part("/a", "b/c")];
    let [odd, long] = [default("", ""), default("b", "image/tiff")];
    let again = part("/A", "d/e");
    for (content, expected) in [
        (format!("{good}{other}{odd}"), 7),
        (format!("{long}{odd}"), 15),
        (format!("{odd}{long}"), 7),
        (format!("{good}{other}{again}"), 10),
        (format!("{other}{again}{odd}"), 10),
        (format!("{good}{other}{long}{odd}"), 15),
        (format!("{good}{other}"), 0),
        (good.clone(), 10),
        (odd.clone(), 7),
        (long.clone(), 15),
        (default("A", "image/tiff"), 10),
        (String::new(), 0),
    ] {
        assert_eq!(types(&mut ledger, &content), expected, "{content}");
    }
    assert_eq!(ledger.totals().charge, 9);
    assert_eq!(ledger.drop_default(b"A"), Ok(()));
    assert_eq!(types(&mut ledger, &default("Z", "x/y")), 0);
}

/// Sets take up to 64 and 256; what is refused for that leaves them free.
#[test]
fn full_sets() {
    let defaults = |from, to| (from..to).map(|i| default(&format!("e{i}"), "a/b"));
    let parts = |from, to| (from..to).map(|i| part(&format!("/o{i}"), "a/b"));
    let links = |from, to| (from..to).map(|i| link(&format!("r{i}"), "t:", "External", "x"));
    let mut ledger = started(100_000);
    let all: String = parts(0, 65).chain(defaults(0, 64)).collect();
    assert_eq!(types(&mut ledger, &all), 15);
    let all: String = parts(0, 64).chain(defaults(0, 64)).collect();
    assert_eq!(types(&mut ledger, &all), 0);
    assert_eq!(types(&mut ledger, &default("x", "a/b")), 15);
    assert_eq!(types(&mut ledger, &part("/o0", "a/b")), 10);
    let all: String = links(0, 257).collect();
    assert_eq!(relationships(&mut ledger, "/", &all), 15);
    let all: String = links(0, 200).collect();
    assert_eq!(relationships(&mut ledger, "/x", &all), 0);
    let all: String = links(0, 57).collect();
    assert_eq!(relationships(&mut ledger, "/", &all), 15);
    let all: String = links(0, 56).collect();
    assert_eq!(relationships(&mut ledger, "/", &all), 0);
    assert_eq!(relationships(&mut ledger, "/y", ""), 0);
}

/// Entries take the source as the call spells it; ids are compared exactly,
/// sources folded.
#[test]
fn spellings_of_the_source() {
    let mut ledger = started(1000);
    let content = link("a", "t:", "Internal", "x");
    assert_eq!(relationships(&mut ledger, "/A/b", &content), 0);
    assert_eq!(relationships(&mut ledger, "/a/B", &content), 10);
    let other = link("A", "t:", "Internal", "x");
    assert_eq!(relationships(&mut ledger, "/a/B", &other), 0);
    assert_eq!(relationships(&mut ledger, "/", &content), 0);
    let sources: Vec<_> = ledger.relationships().map(|fields| fields[0]).collect();
    assert_eq!(sources, [&b"/"[..], b"/a/B", b"/A/b"]);
}
