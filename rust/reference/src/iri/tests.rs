use super::*;
use crate::examples::{RFC_3986, RFC_3986_BASE};

fn resolved(base: &str, reference: &str) -> String {
    let mut out = [0; 600];
    let length = resolve_reference(base.as_bytes(), reference.as_bytes(), &mut out).unwrap();
    String::from_utf8(out[..length].to_vec()).unwrap()
}

fn target(source: &str, target: &str) -> Result<String, u64> {
    let mut out = [0; 300];
    match resolve_target(source.as_bytes(), target.as_bytes(), &mut out) {
        Ok(length) => Ok(String::from_utf8(out[..length].to_vec()).unwrap()),
        Err(refusal) => Err(refusal.number()),
    }
}

#[test]
fn iris_that_pass() {
    for text in [
        "a",
        "#",
        "?",
        "/",
        "//",
        "a:",
        "a:b",
        "x?",
        "x#",
        "a?b?c#d?e",
        "./a:b",
        "/a:b",
        "?a:b",
        "#a:b",
        "h+-.1:x",
        "%41",
        "%2F%00%ff",
        "é",
        "a..",
        "...",
        "a:b:c",
    ] {
        assert!(is_iri(text.as_bytes()), "{text}");
    }
    assert!(is_iri(&[b'a'; 255]));
}

#[test]
fn iris_that_fail() {
    for text in [
        "",
        ":a",
        "1a:b",
        "%41:b",
        "é:b",
        "a_b:c",
        "a##",
        "a#b#c",
        "[",
        "a]b",
        "a b",
        "a%4",
        "a\"",
        "<a>",
        "\\",
        "a|b",
        "^",
        "`",
        "{}",
        "a\u{E000}",
        "+a:b",
    ] {
        assert!(!is_iri(text.as_bytes()), "{text}");
    }
    assert!(!is_iri(&[b'a'; 256]));
    assert!(!is_iri(b"\xC3"));
}

#[test]
fn package_iris() {
    for text in ["a:", "http://h/p#f", "pack://a%3A/b", "A:b"] {
        assert!(is_package_iri(text.as_bytes()), "{text}");
    }
    for text in ["", "a", "/a:b", ":a", "1:a", "?a:"] {
        assert!(!is_package_iri(text.as_bytes()), "{text}");
    }
}

#[test]
fn splitting() {
    let parts = split(b"http://www.ics.uci.edu/pub/ietf/uri/?q#Related");
    assert_eq!(parts.scheme, Some(&b"http"[..]));
    assert_eq!(parts.authority, Some(&b"www.ics.uci.edu"[..]));
    assert_eq!(parts.path, b"/pub/ietf/uri/");
    assert_eq!(parts.query, Some(&b"q"[..]));
    assert_eq!(parts.fragment, Some(&b"Related"[..]));
    let parts = split(b"x?#");
    assert_eq!(
        (parts.query, parts.fragment),
        (Some(&b""[..]), Some(&b""[..]))
    );
    let parts = split(b":a");
    assert_eq!((parts.scheme, parts.path), (None, &b":a"[..]));
    let parts = split(b"a#b?c");
    assert_eq!((parts.query, parts.fragment), (None, Some(&b"b?c"[..])));
}

/// RFC 3986 5.4.1 and 5.4.2, but the empty reference.
#[test]
fn examples_of_rfc_3986() {
    for (reference, expected) in RFC_3986 {
        let text = resolved(RFC_3986_BASE, reference);
        assert_eq!(text, *expected, "{reference}");
    }
}

#[test]
fn resolving_by_the_letter() {
    assert_eq!(resolved("urn:x", "g/../h"), "urn:/h");
    assert_eq!(resolved("a:/b", "/.//c"), "a://c");
    assert_eq!(resolved("http://a", "g"), "http://a/g");
    assert_eq!(resolved("a:", "g"), "a:g");
    assert_eq!(resolved("http://a/x/../y?q#f", "#s"), "http://a/x/../y?q#s");
    assert_eq!(resolved("http://a/x/./y?q", "?z"), "http://a/x/./y?z");
    assert_eq!(resolved("a:b#f", "?z"), "a:b?z");
    assert_eq!(resolved("http://a/b", "c:../d"), "c:d");
    assert_eq!(resolved("http://a/b", "//c/../d"), "http://c/d");
}

/// 003, 6.4.3, case 3.
#[test]
fn external_examples() {
    let package = "http://www.mysite.com/my.package";
    assert_eq!(
        resolved(package, "/b/bar.xml"),
        "http://www.mysite.com/b/bar.xml"
    );
    assert_eq!(
        resolved(package, "bar.xml"),
        "http://www.mysite.com/bar.xml"
    );
    assert_eq!(
        resolved(package, "./bar.xml"),
        "http://www.mysite.com/bar.xml"
    );
    assert_eq!(
        resolved(package, "../bar.xml"),
        "http://www.mysite.com/bar.xml"
    );
}

#[test]
fn external_refusals() {
    let mut out = *b"xxxxxxxxx";
    assert_eq!(
        resolve_reference(b"a", b"b", &mut out),
        Err(Refusal::BadTarget)
    );
    assert_eq!(
        resolve_reference(b"a:", b"", &mut out),
        Err(Refusal::BadTarget)
    );
    let short = resolve_reference(b"a://b", b"/0123456", &mut out);
    assert_eq!(short, Err(Refusal::OutputTooShort(13)));
    assert_eq!(&out, b"xxxxxxxxx");
    assert_eq!(resolve_reference(b"a:b", b"c", &mut out), Ok(3));
    assert_eq!(&out, b"a:cxxxxxx");
}

#[test]
fn internal_targets() {
    let cases = [
        ("/a/b/c", "../../g", "/g"),
        ("/foo/test.xml", "b.xml", "/foo/b.xml"),
        ("/", "a.xml", "/a.xml"),
        ("/a/b/foo.xml", "/b/bar.xml", "/b/bar.xml"),
        ("/a/b/foo.xml", "bar.xml", "/a/b/bar.xml"),
        ("/a/b/foo.xml", "./bar.xml", "/a/b/bar.xml"),
        ("/a/b/foo.xml", "../bar.xml", "/a/bar.xml"),
        ("/", "../bar.xml", "/bar.xml"),
        ("/a", "./b:c", "/b:c"),
    ];
    for (source, given, expected) in cases {
        assert_eq!(
            target(source, given).as_deref(),
            Ok(expected),
            "{source} {given}"
        );
    }
}

#[test]
fn internal_targets_refused() {
    for bad in [
        "", "a:b", "a?", "a#", "a?b", "a#b", "//a/b", ".", "..", "a/", "a//b", "%41", "a%2fb",
        "x.", "/", "#s", "./", "a/.",
    ] {
        assert_eq!(target("/a/b", bad), Err(9), "{bad}");
    }
    assert_eq!(target("/a", "_rels/x.rels"), Err(5));
    assert_eq!(target("/_rels/a", "b.RELS"), Err(5));
    assert_eq!(target("a", ""), Err(4));
    assert_eq!(target("/_rels/.rels", ""), Err(5));
    let long = "a".repeat(250);
    assert_eq!(target("/abc/d", &long).unwrap().len(), 255);
    assert_eq!(target("/abcd/e", &long), Err(9));
}
