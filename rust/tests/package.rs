//! Packages started, filled and shown, by hand.

mod support;

use support::{numbers, show};
use zombirels::package::{Package, CAPACITY_MAX, OVERHEAD};

/// The example of the paper, and refused starts.
#[test]
fn examples() {
    let too_large = CAPACITY_MAX + 1;
    let mut long = vec![0; too_large as usize + OVERHEAD];
    let refused = Package::start(&mut long, too_large).map_err(numbers);
    assert_eq!(refused.err(), Some((2, 0)));
    assert!(long.iter().all(|&byte| byte == 0));
    assert!(Package::start(&mut long, CAPACITY_MAX).is_ok());
    let mut buffer = vec![0; 30_000 + OVERHEAD];
    let refused = Package::start(&mut buffer, 30_001).map_err(numbers);
    assert_eq!(refused.err(), Some((2, 0)));
    assert!(buffer.iter().all(|&byte| byte == 0));
    let package = Package::start(&mut buffer, 30_000).expect("room");
    for (name, bytes, number) in [
        ("/a.xml", "hello", 0),
        ("/A.XML", "", 10),
        ("/a.xml/b", "", 11),
        ("/a.xmlb", "", 0),
        ("/B/[0].piece", "abc", 0),
        ("/b/[01].piece", "", 6),
        ("/x/_RELS/y.RELS", "", 5),
        ("/a/b.", "", 4),
        ("/b", "", 12),
        ("/b/[1].LAST.piece", "de", 0),
        ("/b/[2].piece", "", 12),
    ] {
        let answer = package.put_item(name.as_bytes(), bytes.as_bytes());
        let answer = answer.map_or_else(|refusal| refusal.number(), |()| 0);
        assert_eq!(answer, number, "{name}");
    }
    let mut out = [0; 16];
    assert_eq!(package.read_part(b"/b", 1, &mut out), Ok(4));
    assert_eq!(&out[..4], b"bcde");
    assert_eq!(package.part_at(2, &mut out), Ok(2));
    assert_eq!(&out[..2], b"/B");
}

/// The longest media type: 3 bytes and 31 parameters of 4 bytes.
fn longest_type() -> Vec<u8> {
    [&b"A/b"[..], &b";C=&".repeat(31)].concat()
}

/// Types with parameters come back as given, in a stream with `&amp;`, and are
/// charged with all of their bytes.
#[test]
fn types_with_parameters() {
    let (camera, longest) = (b"image/tiff;page=2", longest_type());
    let capacity = (4 + 1) + (1 + 17) + (2 + 127);
    let mut buffer = vec![0; capacity + OVERHEAD];
    let package = Package::start(&mut buffer, capacity as u64).expect("room");
    package.put_item(b"/a.t", b"x").expect("room");
    package.put_default(b"t", camera).expect("room");
    let mut out = [7; 600];
    assert_eq!(package.media_type(b"/A.T", &mut out), Ok(17));
    assert_eq!(&out[..18], b"image/tiff;page=2\x07");
    package.put_override(b"/b", &longest).expect("room");
    assert_eq!(package.totals().expect("a package").charge, capacity);
    let full = package.put_override(b"/c", b"a/b").map_err(numbers);
    assert_eq!(full, Err((15, 0)));

    let length = package.write_types(&mut out).expect("room");
    let stream = String::from_utf8_lossy(&out[..length]);
    let lines: Vec<&str> = stream.lines().skip(2).collect();
    let escaped = format!("A/b{}", ";C=&amp;".repeat(31));
    let expected = [
        r#"<Default Extension="t" ContentType="image/tiff;page=2"/>"#,
        &format!(r#"<Override PartName="/b" ContentType="{escaped}"/>"#),
        "</Types>",
    ];
    assert_eq!(lines, expected);
}

/// Other types are refused, and every byte stays as it was.
#[test]
fn types_with_odd_parameters() {
    let mut buffer = vec![0; 1000 + OVERHEAD];
    let package = Package::start(&mut buffer, 1000).expect("room");
    package.put_override(b"/a", b"a/b;c=d").expect("room");
    let before = package.as_bytes().to_vec();
    let too_long = [&longest_type()[..], b"x"].concat();
    let odd: [&[u8]; 8] = [
        b"a/b;",
        b"a/b;;c=d",
        b"a/b;c",
        b"a/b;c=d=e",
        b"a/b; c=d",
        b"a/b;c=\"d\"",
        b"a;c=d/b",
        &too_long,
    ];
    for media_type in odd {
        let put = package.put_default(b"t", media_type).map_err(numbers);
        assert_eq!(put, Err((7, 0)), "{}", show(media_type));
        // before what is held is looked at
        let put = package.put_override(b"/a", media_type).map_err(numbers);
        assert_eq!(put, Err((7, 0)), "{}", show(media_type));
        assert!(package.as_bytes() == before, "{}", show(media_type));
    }
}

/// Messages show a package by its length.
#[test]
fn shown_by_length() {
    let mut buffer = [1, 2, 3];
    let package = Package::open_mut(&mut buffer);
    assert_eq!(format!("{package:?}"), "Package { length: 3, .. }");
    let package = package.to_owned();
    assert_eq!(format!("{package:?}"), "PackageBuf { length: 3, .. }");
}
