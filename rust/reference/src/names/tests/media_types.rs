use crate::names::is_media_type;

/// `text`, then so many times `unit`.
fn repeated(text: &[u8], unit: &[u8], times: usize) -> Vec<u8> {
    [text, &unit.repeat(times)].concat()
}

#[test]
fn types_that_pass() {
    for text in [
        &b"a/b"[..],
        b"text/xml",
        b"!#$%&'*+-.^_`|~/0",
        b"image/tiff;page=2",
        b"a/b;c=d",
        b"a/b;c=&",
        b"a/b;c=d;c=d",
        b"a/b;c=d;C=D;e=f",
        b"a/b;0=!#$%&'*+-.^_`|~",
        b"a/b;!#$%&'*+-.^_`|~=0",
    ] {
        assert!(is_media_type(text), "{}", text.escape_ascii());
    }
}

#[test]
fn types_that_fail() {
    for text in [
        &b""[..],
        b"a",
        b"/",
        b"a/",
        b"/b",
        b"a/b/c",
        b"a /b",
        b"a=b",
        b"a/b=c",
        b";",
        b";a/b",
        b"a;c=d",
        b"a;c=d/b",
        b"a/;c=d",
        b"/b;c=d",
        b"a/b/c;d=e",
    ] {
        assert!(!is_media_type(text), "{}", text.escape_ascii());
    }
}

#[test]
fn parameters_that_fail() {
    for text in [
        &b"a/b;"[..],
        b"a/b;;",
        b"a/b;c=d;",
        b"a/b;;c=d",
        b"a/b;c=d;;e=f",
        b"a/b;c",
        b"a/b;=",
        b"a/b;=d",
        b"a/b;c=",
        b"a/b;c=;e=f",
        b"a/b;c;e=f",
        b"a/b;c==d",
        b"a/b;c=d=e",
        b"a/b;c=d/e",
        b"a/b;c/d=e",
        b"a/b;c=\"d\"",
        b"a/b;c=\"\"",
        b"a/b; c=d",
        b"a/b ;c=d",
        b"a/b;c =d",
        b"a/b;c= d",
        b"a/b;c=d ",
        b"a/b;c=d; e=f",
        b"a/b;c=d e",
        b"a/b;c=d,e=f",
        b"a/b;\tc=d",
        b"a/b;c=d\0",
        b"a/b;c=d\n",
        b"a/b;c=\xC3\xA9",
    ] {
        assert!(!is_media_type(text), "{}", text.escape_ascii());
    }
}

/// tchar of RFC 7230 has 77 bytes.
#[test]
fn bytes_of_parameters() {
    let places: [(&[u8], &[u8]); 6] = [
        (b"a/b;", b"=d"),
        (b"a/b;c", b"=d"),
        (b"a/b;c=", b""),
        (b"a/b;c=d", b""),
        (b"a/b;c=", b";e=f"),
        (b"a/b;c=d;", b"e=f"),
    ];
    for (before, after) in places {
        let taken = |byte: u8| is_media_type(&[before, &[byte], after].concat());
        assert_eq!((0..=255).filter(|&byte| taken(byte)).count(), 77);
        assert!((0x80..=255).all(|byte| !taken(byte)));
        for byte in b"\0\t \"(),/:;<=>?@[\\]{}\x7F" {
            assert!(!taken(*byte), "{}", byte.escape_ascii());
        }
    }
}

/// The 127 bytes cover the whole.
#[test]
fn lengths() {
    let places: [(&[u8], &[u8]); 6] = [
        (b"a/", b""),
        (b"", b"/b;c=d"),
        (b"a/b;", b"=d"),
        (b"a/b;c=", b""),
        (b"a/b;c=d;", b"=f"),
        (b"a/b;c=", b";e=f"),
    ];
    for (before, after) in places {
        let fill = 127 - before.len() - after.len();
        let long = |fill| [&repeated(before, b"x", fill), after].concat();
        assert!(is_media_type(&long(fill)), "{}", before.escape_ascii());
        assert!(!is_media_type(&long(fill + 1)), "{}", before.escape_ascii());
    }
    let many = |count| repeated(b"a/b", b";a=b", count);
    assert_eq!(many(31).len(), 127);
    for count in 0..=31 {
        assert!(is_media_type(&many(count)), "{count} parameters");
    }
    assert!(!is_media_type(&many(32)));
    assert!(!is_media_type(&repeated(&many(31), b"x", 1)));
    // the type alone has all the bytes
    let alone = repeated(b"a/", b"b", 125);
    assert!(is_media_type(&alone));
    assert!(!is_media_type(&repeated(&alone, b";c=d", 1)));
}
