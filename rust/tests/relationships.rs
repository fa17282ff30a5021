//! What relationships lead to, by hand.

mod support;

use support::numbers;
use zombirels::package::{Mode, Package, OVERHEAD};

/// The paper's examples of resolving, and the answers beside the length, by
/// hand.
#[test]
fn resolved_relationships() {
    let mut buffer = vec![0; 1000 + OVERHEAD];
    let package = Package::start(&mut buffer, 1000).expect("room");
    let put = |package: &mut Package, source: &[u8], id: &[u8], mode, target: &[u8]| {
        let put = package.put_relationship(source, id, b"a:", mode, target);
        put.expect("room");
    };
    put(package, b"/foo/test.xml", b"i", Mode::Internal, b"b.xml");
    put(package, b"/foo/test.xml", b"e", Mode::External, b"b.xml");
    put(package, b"/A/b/c", b"up", Mode::Internal, b"../../g");
    put(package, b"/A/b/c", b"near", Mode::Internal, b"D");
    put(package, b"/", b"i", Mode::Internal, b"a");
    let base = b"http://www.example.com/ex.opc#f";
    let resolve = |package: &Package, source: &[u8], id: &[u8]| {
        let mut out = [0; 100];
        let r = package.resolve_relationship(source, id, base, &mut out);
        let r = r.expect("held");
        let text = String::from_utf8_lossy(&out[..r.length]).into_owned();
        (text, r.mode.number(), r.held)
    };
    let pack = |name: &str| format!("pack://http%3A,,www.example.com,ex.opc{name}");
    let outside = "http://www.example.com/b.xml".to_string();
    let asked: &[u8] = b"/FOO/test.XML";
    let missing = (pack("/foo/b.xml"), 0, false);
    assert_eq!(resolve(package, asked, b"i"), missing);
    assert_eq!(resolve(package, asked, b"e"), (outside, 1, false));
    assert_eq!(resolve(package, b"/a/B/c", b"up"), (pack("/g"), 0, false));
    assert_eq!(resolve(package, b"/", b"i"), (pack("/a"), 0, false));
    package.put_item(b"/Foo/B.xml", b"").expect("room");
    let held = (pack("/foo/b.xml"), 0, true);
    assert_eq!(resolve(package, asked, b"i"), held);
    // the path is spelt as the held source; pieces make a part once all are there
    let near = pack("/A/b/D");
    package.put_item(b"/a/b/d/[0].piece", b"").expect("room");
    let none = (near.clone(), 0, false);
    assert_eq!(resolve(package, b"/a/b/C", b"near"), none);
    let last = package.put_item(b"/a/b/d/[1].last.piece", b"");
    last.expect("room");
    assert_eq!(resolve(package, b"/a/b/C", b"near"), (near, 0, true));
    for (source, id, base, number) in [
        ("x", "1", "", 4),
        ("/_rels/.rels", "1", "", 5),
        ("/foo/test.xml", "1", "", 8),
        ("/foo/test.xml", "I", "b", 9),
        ("/foo/test.xml", "I", "a:b", 13),
        ("/foo", "i", "a:b", 13),
        ("/foo/test.xml", "i", "a:b", 3),
    ] {
        let mut out = [7; 10];
        let [source, id, base] = [source, id, base].map(str::as_bytes);
        let answer = package.resolve_relationship(source, id, base, &mut out);
        let needed = if number == 3 { 22 } else { 0 };
        let refusal = answer.map_err(numbers).err();
        assert_eq!(refusal, Some((number, needed)));
        assert_eq!(out, [7; 10]);
    }
}
