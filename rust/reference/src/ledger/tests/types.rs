//! Defaults, Overrides and the stream that lists them.

use super::*;

#[test]
fn media_types() {
    let mut held = ledger(1000);
    assert_eq!(held.put_default(b"XML", b"text/xml"), Ok(()));
    assert_eq!(held.put_default(b"xml", b"a/b"), Err(Refusal::Taken));
    assert_eq!(held.put_override(b"/B.xml", b"Text/B"), Ok(()));
    assert_eq!(held.put_override(b"/_rels/.rels", b"a/b"), Ok(()));
    assert_eq!(held.put_override(b"/b.XML", b"a/b"), Err(Refusal::Taken));
    assert_eq!(text(|out| held.media_type(b"/b.xml", out)), Err(13));
    for name in ["/a.xml", "/b.xml", "/xml", "/c.xml.d", "/e/[0].piece"] {
        assert_eq!(put(&mut held, name), 0);
    }
    assert_eq!(
        text(|out| held.media_type(b"/A.Xml", out)).as_deref(),
        Ok("text/xml")
    );
    assert_eq!(
        text(|out| held.media_type(b"/b.xml", out)).as_deref(),
        Ok("Text/B")
    );
    for (name, expected) in [("/xml", 14), ("/c.xml.d", 14), ("/e", 13), ("x", 4)] {
        assert_eq!(
            text(|out| held.media_type(name.as_bytes(), out)),
            Err(expected)
        );
    }
    let short = held.media_type(b"/a.xml", &mut [0; 7]);
    assert_eq!(short, Err(Refusal::OutputTooShort(8)));
    assert_eq!(held.drop_override(b"/B.XML"), Ok(()));
    assert_eq!(
        text(|out| held.media_type(b"/b.xml", out)).as_deref(),
        Ok("text/xml")
    );
    assert_eq!(held.drop_default(b"Xml"), Ok(()));
    assert_eq!(text(|out| held.media_type(b"/b.xml", out)), Err(14));
    check_sums(&held);
}

/// Types with parameters come back as given; all of their bytes are charged.
#[test]
fn media_types_with_parameters() {
    let mut held = ledger(1000);
    let longest = format!("a/b{}", ";A=&".repeat(31));
    for (name, media_type) in [("/B.tif", "Image/TIFF;Page=2;page=2"), ("/c", &longest)] {
        let put = held.put_override(name.as_bytes(), media_type.as_bytes());
        assert_eq!(put, Ok(()));
    }
    assert_eq!(held.put_default(b"tif", b"image/tiff;page=2"), Ok(()));
    assert_eq!(held.totals().charge, (6 + 24) + (2 + 127) + (3 + 17));
    for (name, expected) in [
        ("/a.tif", "image/tiff;page=2"),
        ("/b.tif", "Image/TIFF;Page=2;page=2"),
        ("/c", &longest),
    ] {
        assert_eq!(put(&mut held, name), 0);
        let held_type = text(|out| held.media_type(name.as_bytes(), out));
        assert_eq!(held_type.as_deref(), Ok(expected));
    }
    let short = held.media_type(b"/a.tif", &mut [0; 16]);
    assert_eq!(short, Err(Refusal::OutputTooShort(17)));
    check_sums(&held);
}

#[test]
fn type_refusals() {
    let mut held = ledger(1000);
    assert_eq!(number(held.put_default(b".a", b"a/b")), 7);
    assert_eq!(number(held.put_default(b"a", b"a")), 7);
    assert_eq!(number(held.drop_default(b"a.b")), 7);
    assert_eq!(number(held.drop_default(b"a")), 13);
    assert_eq!(number(held.put_override(b"a", b"a")), 4);
    assert_eq!(number(held.put_override(b"/a", b"a")), 7);
    for odd in ["a/b;", "a/b;c", "a/b;c=d=e", "a/b; c=d", "a/b;c=\"d\""] {
        assert_eq!(number(held.put_default(b"a", odd.as_bytes())), 7);
        assert_eq!(number(held.put_override(b"/a", odd.as_bytes())), 7);
    }
    assert_eq!(number(held.drop_override(b"/a/[0].piece")), 4);
    assert_eq!(number(held.drop_override(b"/_rels/.rels")), 13);
}

#[test]
fn writing_types() {
    let mut held = ledger(1000);
    let start = "<?xml version=\"1.0\" encoding=\"UTF-8\"?>\n<Types xmlns=\
                 \"http://schemas.openxmlformats.org/package/2006/content-types\">\n";
    assert_eq!(
        text(|out| held.write_types(out)),
        Ok(format!("{start}</Types>\n"))
    );
    held.put_default(b"xml", b"text/xml").unwrap();
    held.put_default(b"A&b", b"x/&;y=&;&=z").unwrap();
    held.put_override(b"/B'", b"a/b").unwrap();
    held.put_override(b"/a&", b"c/d").unwrap();
    let expected = "<Default Extension=\"A&amp;b\" ContentType=\"x/&amp;;y=&amp;;&amp;=z\"/>\n\
                    <Default Extension=\"xml\" ContentType=\"text/xml\"/>\n\
                    <Override PartName=\"/a&amp;\" ContentType=\"c/d\"/>\n\
                    <Override PartName=\"/B'\" ContentType=\"a/b\"/>\n</Types>\n";
    let expected = format!("{start}{expected}");
    assert_eq!(text(|out| held.write_types(out)).as_ref(), Ok(&expected));
    let short = held.write_types(&mut vec![0; expected.len() - 1]);
    assert_eq!(short, Err(Refusal::OutputTooShort(expected.len())));
}
