mod media_types;

use super::*;

fn name_of(length: usize) -> Vec<u8> {
    let mut name = vec![b'a'; length];
    name[0] = b'/';
    name
}

fn item(name: &[u8]) -> Result<(usize, Option<(u16, bool)>), u64> {
    match take_apart(name) {
        Ok(item) => Ok((item.prefix.len(), item.piece.map(|p| (p.number, p.last)))),
        Err(refusal) => Err(refusal.number()),
    }
}

#[test]
fn part_names_that_pass() {
    let names: [&[u8]; 21] = [
        b"/hello/world/doc.xml",
        b"/\xC3\xA9",
        b"/a",
        b"/..a",
        b"/.xml",
        b"/.rels",
        b"/%00",
        b"/%20",
        b"/%25",
        b"/%7F",
        b"/%80",
        b"/%D1%86",
        b"/%2541",
        b"/-._~!$&'()*+,;=:@",
        b"/_rels/x.rels.xml",
        b"/x/_RELS/y.RELS",
        "/\u{A0}\u{D7FF}\u{F900}\u{FDCF}".as_bytes(),
        "/\u{FDF0}\u{FFEF}".as_bytes(),
        "/\u{10000}\u{1FFFD}\u{D0000}\u{DFFFD}".as_bytes(),
        "/\u{E1000}\u{EFFFD}".as_bytes(),
        b"/a/%ff",
    ];
    for name in names {
        assert!(is_part_name(name), "{}", name.escape_ascii());
    }
}

#[test]
fn part_names_that_fail() {
    let names: [&[u8]; 33] = [
        b"",
        b"/",
        b"a",
        b"a/b",
        b"//",
        b"//a",
        b"/a/",
        b"/a//b",
        b"/a%2fb",
        b"/a%2Fb",
        b"/a%5c",
        b"/a/%41",
        b"/a/%7e",
        b"/%2e",
        b"/%30",
        b"/%5f",
        b"/a/b.",
        b"/.",
        b"/..",
        b"/a./b",
        b"/%",
        b"/%2",
        b"/%g0",
        b"/a b",
        b"/[0].piece",
        b"/a?b",
        b"/a#b",
        b"/a\\b",
        b"/\xC3",
        b"/\xC1\xA9",
        b"/\xED\xA0\x80",
        b"/\xF4\x90\x80\x80",
        b"/\xE0\x82\xA9",
    ];
    for name in names {
        assert!(!is_part_name(name), "{}", name.escape_ascii());
    }
    for code in ['\u{9F}', '\u{E000}', '\u{F8FF}', '\u{FDD0}', '\u{FDEF}'] {
        assert!(!is_part_name(format!("/{code}").as_bytes()));
    }
    for code in [
        '\u{FFF0}',
        '\u{1FFFE}',
        '\u{E0FFF}',
        '\u{EFFFE}',
        '\u{F0000}',
    ] {
        assert!(!is_part_name(format!("/{code}").as_bytes()));
    }
}

#[test]
fn part_names_at_the_edges() {
    assert!(!is_part_name(&name_of(1)));
    assert!(is_part_name(&name_of(2)));
    assert!(is_part_name(&name_of(255)));
    assert!(!is_part_name(&name_of(256)));
}

#[test]
fn equivalence_and_order() {
    assert!(is_equivalent(b"/a%c3", b"/A%C3"));
    assert!(!is_equivalent("/é".as_bytes(), "/É".as_bytes()));
    assert!(is_derivable(b"/A/b", b"/a"));
    assert!(!is_derivable(b"/ab", b"/a"));
    assert!(!is_derivable(b"/a/", b"/a"));
    assert!(!is_derivable(b"/a", b"/a"));
    assert!(!is_derivable(b"/a", b"/a/b"));
    assert_eq!(compare_folded(b"/b-", b"/B/c"), Ordering::Less);
    assert_eq!(compare_folded(b"/B", b"/b"), Ordering::Equal);
    assert_eq!(compare_folded(b"/a", b"/A/b"), Ordering::Less);
    assert_eq!(compare_folded(b"/_", b"/A"), Ordering::Less);
    assert_eq!(compare_folded(b"/\xC3\xA9", b"/z"), Ordering::Greater);
}

#[test]
fn reserved_names() {
    for name in [&b"/_rels/.rels"[..], b"/x/_RELS/y.RELS", b"/_rels/a.b.rels"] {
        assert!(is_reserved(name), "{}", name.escape_ascii());
    }
    let free: [&[u8]; 6] = [
        b"/_rels/x.rels.xml",
        b"/.rels",
        b"/_rels/.rels/x",
        b"/_rels",
        b"/a_rels/x.rels",
        b"/_rels/rels",
    ];
    for name in free {
        assert!(!is_reserved(name), "{}", name.escape_ascii());
    }
}

#[test]
fn item_names() {
    assert_eq!(item(b"/a.xml"), Ok((6, None)));
    assert_eq!(item(b"/a/[0].piece"), Ok((2, Some((0, false)))));
    assert_eq!(item(b"/b/[1].LAST.piece"), Ok((2, Some((1, true)))));
    assert_eq!(item(b"/a/[9999].Piece"), Ok((2, Some((9999, false)))));
    assert_eq!(item(b"/_rels/a.rels/[0].piece"), Ok((13, Some((0, false)))));
    let mut longest = name_of(255);
    longest.extend_from_slice(b"/[9999].last.piece");
    assert_eq!(
        (longest.len(), item(&longest)),
        (273, Ok((255, Some((9999, true)))))
    );
    let mut too_long = name_of(256);
    too_long.extend_from_slice(b"/[0].piece");
    assert_eq!(item(&too_long), Err(4));
}

#[test]
fn item_names_refused() {
    for name in [
        &b"/a/[01].piece"[..],
        b"/a%2f/[x]",
        b"/a/[10000].piece",
        b"/a/[",
        b"/a/[]",
        b"/a/[].piece",
        b"/a/[0]",
        b"/a/[0].piecex",
        b"/a/[0]piece",
        b"/a/[0].last",
        b"/a/[0].lastpiece",
        b"/a/[-1].piece",
        b"/[",
    ] {
        assert_eq!(item(name), Err(6), "{}", name.escape_ascii());
    }
    for name in [
        &b"/a%2f/[0].piece"[..],
        b"[0].piece",
        b"/[0].piece",
        b"/[trash]/0000.dat",
        b"/a/[0]/[1].piece",
        b"",
        b"/",
        b"/a/x[0].piece",
    ] {
        assert_eq!(item(name), Err(4), "{}", name.escape_ascii());
    }
}

#[test]
fn extensions_of_names() {
    assert_eq!(extension(b"/a.tar.xml"), Some(&b"xml"[..]));
    assert_eq!(extension(b"/.xml"), Some(&b"xml"[..]));
    assert_eq!(extension(b"/_rels.a/b"), None);
    assert_eq!(extension(b"/a"), None);
}

#[test]
fn extensions() {
    for text in [&b"xml"[..], b"%25", b"a:b@", &[b'a'; 31], b"\xC3\xA9"] {
        assert!(is_extension(text), "{}", text.escape_ascii());
    }
    for text in [
        &b""[..],
        b".xml",
        b"a.b",
        b"%41",
        b"a/b",
        b"%2f",
        &[b'a'; 32],
    ] {
        assert!(!is_extension(text), "{}", text.escape_ascii());
    }
}

#[test]
fn ids() {
    for text in [&b"_"[..], b"rId1", b"A.b-c_9", &[b'a'; 63]] {
        assert!(is_id(text), "{}", text.escape_ascii());
    }
    for text in [
        &b""[..],
        b"1a",
        b".a",
        b"-a",
        b"a:b",
        b"\xC3\xA9",
        &[b'a'; 64],
    ] {
        assert!(!is_id(text), "{}", text.escape_ascii());
    }
}
