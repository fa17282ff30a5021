//! Examples, by hand.

use crate::{buffer, Pair};
use zombirels::package::{Package, TypeOrigin};
use zombirels::script::Script;
use zombirels::Refusal;

fn neither() -> (u64, String) {
    (0, String::new())
}

fn by_default(extension: &str) -> (u64, String) {
    (1, extension.to_string())
}

fn by_override(name: &str) -> (u64, String) {
    (2, name.to_string())
}

/// Both entries are held, one of them, or none; dropped, each leaves the
/// other.
#[test]
fn held_entries() {
    let mut buffer = buffer(1000);
    let parts = ["/both.x", "/override", "/default.x", "/none.y"];
    let mut pair = Pair::with(&mut buffer, &parts, &["x"], &["/both.x", "/override"]);
    assert_eq!(pair.found("/both.x"), by_override("/both.x"));
    assert_eq!(pair.found("/override"), by_override("/override"));
    assert_eq!(pair.found("/default.x"), by_default("x"));
    assert_eq!(pair.found("/none.y"), neither());

    pair.drop_override(b"/both.x");
    assert_eq!(pair.found("/both.x"), by_default("x"));
    pair.put_override(b"/both.x", b"a/b");
    pair.drop_default(b"x");
    assert_eq!(pair.found("/both.x"), by_override("/both.x"));
    assert_eq!(pair.found("/default.x"), neither());
    pair.drop_override(b"/both.x");
    assert_eq!(pair.found("/both.x"), neither());
}

/// The key is the entry's own, not that of the part or of the name asked for.
#[test]
fn spellings() {
    let mut buffer = buffer(1000);
    let mut pair = Pair::with(
        &mut buffer,
        &["/Left/T3.Tiff"],
        &["tIFF"],
        &["/LEFT/t3.tiff"],
    );
    for name in ["/Left/T3.Tiff", "/left/t3.tiff", "/LEFT/T3.TIFF"] {
        assert_eq!(pair.found(name), by_override("/LEFT/t3.tiff"));
    }
    pair.drop_override(b"/left/T3.tiff");
    for name in ["/Left/T3.Tiff", "/left/t3.tiff", "/LEFT/T3.TIFF"] {
        assert_eq!(pair.found(name), by_default("tIFF"));
    }
    // put again, each in another spelling
    pair.drop_default(b"TIFF");
    pair.put_default(b"Tiff", b"a/b");
    assert_eq!(pair.found("/left/t3.tiff"), by_default("Tiff"));
    pair.put_override(b"/left/T3.tiFF", b"a/b");
    assert_eq!(pair.found("/left/t3.tiff"), by_override("/left/T3.tiFF"));
}

/// The extension follows the last dot of the last segment.
#[test]
fn extensions() {
    let long = "e".repeat(31);
    let parts = [
        "/x",
        "/a.x.y",
        "/a.y.x",
        "/b.x/c",
        "/b.x/d.y/e",
        "/.x",
        "/f.xx",
        "/g.é",
        "/h.É",
        "/i.%20",
        "/R&D.&",
        &format!("/j.{long}"),
        &format!("/j.{long}e"),
        &format!("/j.{}", "e".repeat(200)),
    ];
    let mut buffer = buffer(2000);
    let pair = Pair::with(&mut buffer, &parts, &["X", "é", "%20", "&", &long], &[]);
    for (name, expected) in [
        ("/x", neither()),
        ("/a.x.y", neither()),
        ("/a.y.x", by_default("X")),
        ("/b.x/c", neither()),
        ("/b.x/d.y/e", neither()),
        ("/.x", by_default("X")),
        ("/f.xx", neither()),
        ("/g.é", by_default("é")),
        ("/h.É", neither()),
        ("/i.%20", by_default("%20")),
        ("/r&d.&", by_default("&")),
        (parts[11], by_default(&long)),
        (parts[12], neither()),
        (parts[13], neither()),
    ] {
        assert_eq!(pair.found(name), expected, "{name}");
    }
}

/// Entries of other names and extensions, shorter and longer ones.
#[test]
fn other_entries() {
    let mut buffer = buffer(1000);
    let mut pair = Pair::with(
        &mut buffer,
        &["/tiles/t3.tiff"],
        &["tif", "tiffs", "t"],
        &["/tiles/t3.tif", "/tiles/t3.tiffs", "/tiles", "/t3.tiff"],
    );
    assert_eq!(pair.found("/tiles/t3.tiff"), neither());
    pair.put_default(b"TIFF", b"a/b");
    assert_eq!(pair.found("/tiles/t3.tiff"), by_default("TIFF"));
    pair.put_override(b"/TILES/t3.tiff", b"a/b");
    assert_eq!(pair.found("/tiles/t3.tiff"), by_override("/TILES/t3.tiff"));
}

/// A part in pieces, in whatever spelling they came, is one part; cut or
/// joined it has the same entry.
#[test]
fn pieces() {
    let mut buffer = buffer(1000);
    let mut pair = Pair::with(&mut buffer, &["/T3.x/[1].last.piece"], &["X"], &["/t4"]);
    assert_eq!(pair.origin(b"/t3.x", 255), Err((13, 0)));
    pair.put(b"/t3.X/[0].PIECE");
    assert_eq!(pair.found("/t3.x"), by_default("X"));
    assert_eq!(pair.origin(b"/t3.x/[0].piece", 255), Err((4, 0)));
    pair.put(b"/T4");
    for pieces in [1, 3] {
        pair.package.cut_part(b"/t4", pieces).expect("whole");
        assert_eq!(pair.found("/T4"), by_override("/t4"));
        pair.package.join_part(b"/t4").expect("in pieces");
        assert_eq!(pair.found("/T4"), by_override("/t4"));
    }
    pair.package.join_part(b"/t3.x").expect("in pieces");
    assert_eq!(pair.found("/t3.x"), by_default("X"));
}

/// As many entries as there can be: each is found.
#[test]
fn full_sets() {
    let mut buffer = buffer(20_000);
    let mut pair = Pair::start(&mut buffer);
    for i in 0..64 {
        pair.put(format!("/t{i}.e{i}").as_bytes());
        pair.put(format!("/n{i}").as_bytes());
        pair.put_default(format!("E{i}").as_bytes(), b"a/b");
        pair.put_override(format!("/N{i}").as_bytes(), b"a/b");
    }
    for i in 0..64 {
        assert_eq!(
            pair.found(&format!("/t{i}.e{i}")),
            by_default(&format!("E{i}"))
        );
        assert_eq!(
            pair.found(&format!("/n{i}")),
            by_override(&format!("/N{i}"))
        );
    }
}

/// In a script, beside what it changes.
#[test]
fn in_a_script() {
    let mut script = Script::new();
    script.put_item(b"/t3.x", b"").type_origin(b"/t3.x", 0);
    script.put_default(b"X", b"a/b").type_origin(b"/T3.x", 3);
    script.type_origin(b"/t3.x", 0).type_origin(b"/t4", 9);
    script
        .put_override(b"/T3.X", b"a/b")
        .type_origin(b"/t3.x", 5);
    let mut buffer = buffer(100);
    let package = Package::start(&mut buffer, 100).expect("room");
    let mut out = vec![b'.'; script.output_len()];
    let answers: Vec<_> = package.run(&script, &mut out).into_iter().collect();
    assert_eq!(answers[1].type_origin(), Ok(TypeOrigin::Neither));
    assert_eq!(answers[1].values, Ok([0, 0, 0]));
    assert_eq!(answers[3].type_origin(), Ok(TypeOrigin::Default(&b"X"[..])));
    assert_eq!((answers[3].length(), answers[3].lent), (Ok(1), &b"X.."[..]));
    let short = Refusal::OutputTooShort { needed: 1 };
    assert_eq!(answers[4].type_origin(), Err(short));
    assert_eq!(answers[5].type_origin(), Err(Refusal::NotHeld));
    assert_eq!(answers[5].lent, b".........");
    assert_eq!(
        answers[7].type_origin(),
        Ok(TypeOrigin::Override(&b"/T3.X"[..]))
    );
    assert_eq!(answers[7].output(), Ok(&b"/T3.X"[..]));
    assert_eq!(answers[7].values, Ok([2, 5, 0]));
}

/// From bytes that can only be read; the key outlives the package.
#[test]
fn only_looked_at() {
    let mut buffer = buffer(100);
    Pair::with(&mut buffer, &["/t3.x"], &["X"], &[]);
    let mut out = [b'.'; 4];
    let origin = Package::open(&buffer).type_origin(b"/T3.x", &mut out);
    drop(buffer);
    assert_eq!(origin, Ok(TypeOrigin::Default(&b"X"[..])));
    assert_eq!(origin.map(TypeOrigin::key), Ok(Some(&b"X"[..])));
    assert_eq!(&out, b"X...");
    assert_eq!(TypeOrigin::<&[u8]>::Neither.key(), None);
}
