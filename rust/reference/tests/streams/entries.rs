//! What is read from accepted streams, by hand.

use reference::examples::streams::{Kind, DEFAULT, RELATIONSHIP};
use reference::streams::{read_relationships, read_types, TypesEntry};

/// The entries as their element's first letter, their key and their type.
fn types(content: &str) -> Result<Vec<(char, String, String)>, u8> {
    let stream = DEFAULT.stream(format!("$<{content}$>").as_bytes());
    let entries = read_types(&stream)?;
    let row = |letter, key: &[u8], media_type: &[u8]| (letter, text(key), text(media_type));
    let entries = entries.iter().map(|entry| match entry {
        TypesEntry::Default {
            extension,
            media_type,
        } => row('D', extension, media_type),
        TypesEntry::Override { name, media_type } => row('O', name, media_type),
    });
    Ok(entries.collect())
}

/// The relationships as id, type, mode and target.
fn relationships(content: &str) -> Result<Vec<(String, String, u64, String)>, u8> {
    let stream = RELATIONSHIP.stream(format!("$<{content}$>").as_bytes());
    let entries = read_relationships(&stream)?.into_iter();
    let row = entries.map(|e| (text(&e.id), text(&e.kind), e.mode, text(&e.target)));
    Ok(row.collect())
}

fn text(bytes: &[u8]) -> String {
    String::from_utf8(bytes.to_vec()).expect("UTF-8")
}

fn row(letter: char, key: &str, media_type: &str) -> (char, String, String) {
    (letter, key.to_string(), media_type.to_string())
}

/// Defaults, Overrides and their attributes in any order; keys may be equal.
#[test]
fn types_in_any_order() {
    let content = "<Override PartName='/a' ContentType='b/c'/>\
                   <Default ContentType='d/e' Extension='f'/>\
                   <!--g--><p:a/>\
                   <Override ContentType='h/i' p:PartName='/x' PartName='/a'></Override>\
                   <Default Extension='f' ContentType='d/e'> </Default>";
    let expected = vec![
        row('O', "/a", "b/c"),
        row('D', "f", "d/e"),
        row('O', "/a", "h/i"),
        row('D', "f", "d/e"),
    ];
    assert_eq!(types(content), Ok(expected));
    assert_eq!(types(""), Ok(vec![]));
}

/// Entities are decoded once; nothing else is.
#[test]
fn values() {
    for (raw, value) in [
        ("", ""),
        ("a", "a"),
        ("&lt;&gt;&amp;&quot;&apos;", "<>&\"'"),
        ("a&amp;b&amp;", "a&b&"),
        ("&amp;lt;", "&lt;"),
        ("&amp;amp;amp;", "&amp;amp;"),
        ("&amp;#38;", "&#38;"),
        ("&lt;!--&gt;", "<!-->"),
        ("> ]]> /> %26 é \0", "> ]]> /> %26 é \0"),
        (" a\t\r\n b  ", " a\t\r\n b  "),
        ("\\u0026", "\\u0026"),
    ] {
        for quote in ["\"", "'"] {
            let other = if quote == "'" { "\"" } else { "'" };
            let content = format!(
                "<Default Extension={quote}{raw}{quote} ContentType={quote}{other}{raw}{quote}/>"
            );
            let expected = vec![row('D', value, &format!("{other}{value}"))];
            assert_eq!(types(&content), Ok(expected), "{raw}");
        }
    }
}

/// Each attribute must be there.
#[test]
fn attributes_of_types() {
    for (content, expected) in [
        ("<Default Extension='a' ContentType='b'/>", Ok(1)),
        ("<Default Extension='a'/>", Err(19)),
        ("<Default ContentType='b'/>", Err(19)),
        ("<Default Extension='a' p:ContentType='b'/>", Err(19)),
        ("<Default PartName='a' ContentType='b'/>", Err(19)),
        (
            "<Default Extension='a' PartName='a' ContentType='b'/>",
            Err(19),
        ),
        (
            "<Default Extension='a' ContentType='b' Extension='c'/>",
            Err(19),
        ),
        ("<Override PartName='a' ContentType='b'/>", Ok(1)),
        ("<Override PartName='a'/>", Err(19)),
        ("<Override ContentType='b'/>", Err(19)),
        ("<Override Extension='a' ContentType='b'/>", Err(19)),
        ("<Relationship Id='a' Type='b' Target='c'/>", Err(19)),
    ] {
        let count = types(content).map(|entries| entries.len());
        assert_eq!(count, expected, "{content}");
    }
}

/// Each attribute but TargetMode must be there.
#[test]
fn attributes_of_relationships() {
    for (content, expected) in [
        ("<Relationship Id='a' Type='b' Target='c'/>", Ok(1)),
        (
            "<Relationship Target='c' Type='b' Id='a'></Relationship>",
            Ok(1),
        ),
        ("<Relationship Type='b' Target='c'/>", Err(19)),
        ("<Relationship Id='a' Target='c'/>", Err(19)),
        ("<Relationship Id='a' Type='b'/>", Err(19)),
        (
            "<Relationship Id='a' Type='b' TargetMode='External'/>",
            Err(19),
        ),
        (
            "<Relationship Id='a' Type='b' Target='c' Source='d'/>",
            Err(19),
        ),
        ("<Relationship Id='a' Type='b' Target='c' Id='a'/>", Err(19)),
        ("<Default Extension='a' ContentType='b'/>", Err(19)),
    ] {
        let count = relationships(content).map(|entries| entries.len());
        assert_eq!(count, expected, "{content}");
    }
}

/// Internal if TargetMode is missing, 2 if it says neither.
#[test]
fn modes() {
    for (attribute, mode) in [
        ("", 0),
        ("TargetMode='Internal'", 0),
        ("TargetMode = \"External\"", 1),
        ("p:TargetMode='External'", 0),
        ("TargetMode=''", 2),
        ("TargetMode='internal'", 2),
        ("TargetMode='EXTERNAL'", 2),
        ("TargetMode=' External'", 2),
        ("TargetMode='External\n'", 2),
        ("TargetMode='External\0'", 2),
        ("TargetMode='&apos;'", 2),
    ] {
        for content in [
            format!("<Relationship {attribute} Target='d&amp;' Id='b' Type='c'/>"),
            format!("<Relationship Id='b' Type='c' Target='d&amp;' {attribute}></Relationship>"),
        ] {
            let entry = ("b".to_string(), "c".to_string(), mode, "d&".to_string());
            assert_eq!(relationships(&content), Ok(vec![entry]), "{attribute}");
        }
    }
}

/// A stream has the root and the namespace of its kind.
#[test]
fn other_kinds() {
    let (types, relationships) = (DEFAULT.stream(b"$<$>"), RELATIONSHIP.stream(b"$<$>"));
    assert_eq!(read_types(&types).map(|entries| entries.len()), Ok(0));
    assert_eq!(read_types(&relationships), Err(19));
    assert_eq!(read_relationships(&types), Err(19));
    let crossed = Kind {
        root: DEFAULT.root,
        ..RELATIONSHIP
    };
    assert_eq!(read_types(&crossed.stream(b"$<$>")), Err(19));
    assert_eq!(read_relationships(&crossed.stream(b"$<$>")), Err(19));
}

/// Every depth, at the root and in an entry, by tag pairs and by an empty tag.
#[test]
fn depths() {
    for (before, after, first) in [("", "", 2), (DEFAULT_START, "</Default>", 3)] {
        for depth in first..40 {
            let levels = depth - first;
            let expected = if depth > 16 { Err(20) } else { Ok(()) };
            for (open, close) in [("<p:a>", "</p:a>"), ("<p:a/>", "")] {
                let (down, up) = ("<q:b>".repeat(levels), "</q:b>".repeat(levels));
                let answer = types(&format!("{before}{down}{open}{close}{up}{after}"));
                assert_eq!(answer.map(|_| ()), expected, "{depth}");
            }
        }
    }
}

const DEFAULT_START: &str = "<Default Extension='a' ContentType='b'>";

/// No stream, name, comment, text, value or tag is too long.
#[test]
fn long_streams() {
    let long = "a".repeat(300_000);
    let blanks = " \n".repeat(100_000);
    let attributes = (0..50_000).map(|i| format!(" p:a{i}=''"));
    let attributes: String = attributes.collect();
    for (content, expected) in [
        (blanks.clone(), Ok(0)),
        (format!("<!--{long}-->"), Ok(0)),
        (format!("<!--{}-->", "- ".repeat(100_000)), Ok(0)),
        (format!("<p:{long}>{long}</p:{long}>"), Ok(0)),
        (format!("<p:a b='{long}'/>"), Ok(0)),
        (format!("<p:a{attributes}/>"), Ok(0)),
        (format!("<p:a{attributes} p:a7=''/>"), Err(19)),
        (
            format!("<Default{blanks}ContentType='b' Extension='{long}'{attributes}/>"),
            Ok(1),
        ),
        ("<p:a></p:a>".repeat(30_000), Ok(0)),
        (
            format!("{DEFAULT_START}</Default>").repeat(10_000),
            Ok(10_000),
        ),
    ] {
        let count = types(&content).map(|entries| entries.len());
        assert_eq!(count, expected, "{} bytes", content.len());
    }
}
