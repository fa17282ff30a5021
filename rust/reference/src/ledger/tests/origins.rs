//! The entries that media types come from.

use super::*;

/// A ledger with these parts, Defaults and Overrides. The type of each Default
/// and Override is its own.
fn held(parts: &[&str], defaults: &[&str], overrides: &[&str]) -> Ledger {
    let mut held = ledger(10_000);
    for name in parts {
        assert_eq!(put(&mut held, name), 0, "{name}");
    }
    for (i, key) in defaults.iter().enumerate() {
        let put = held.put_default(key.as_bytes(), format!("d/{i}").as_bytes());
        assert_eq!(put, Ok(()), "{key}");
    }
    for (i, key) in overrides.iter().enumerate() {
        let put = held.put_override(key.as_bytes(), format!("o/{i}").as_bytes());
        assert_eq!(put, Ok(()), "{key}");
    }
    held
}

/// The kind and the key, or the number of the refusal.
fn origin(ledger: &Ledger, name: &str) -> Result<(u64, String), u64> {
    let mut out = [b'.'; 300];
    let origin = ledger.type_origin(name.as_bytes(), &mut out);
    let Origin { kind, length } = origin.map_err(Refusal::number)?;
    assert!(out[length..].iter().all(|&byte| byte == b'.'));
    let key = String::from_utf8(out[..length].to_vec()).unwrap();
    Ok((kind, key))
}

fn found(kind: u64, key: &str) -> Result<(u64, String), u64> {
    Ok((kind, key.to_string()))
}

#[test]
fn overrides_go_before_defaults() {
    let mut held = held(&["/a.x", "/b.x", "/c", "/d.y"], &["X"], &["/A.x", "/C"]);
    assert_eq!(origin(&held, "/a.x"), found(2, "/A.x"));
    assert_eq!(origin(&held, "/b.X"), found(1, "X"));
    assert_eq!(origin(&held, "/c"), found(2, "/C"));
    assert_eq!(origin(&held, "/D.Y"), found(0, ""));
    assert_eq!(held.drop_override(b"/a.X"), Ok(()));
    assert_eq!(origin(&held, "/a.x"), found(1, "X"));
    assert_eq!(held.drop_default(b"x"), Ok(()));
    assert_eq!(origin(&held, "/a.x"), found(0, ""));
    check_sums(&held);
}

/// The key is the entry's, whatever is asked and however the part is spelled.
#[test]
fn keys_as_they_were_put() {
    let mut held = held(&["/Left/T3.tiff"], &["TiFf"], &["/LEFT/t3.TIFF"]);
    for name in ["/Left/T3.tiff", "/left/t3.tiff", "/LEFT/T3.TIFF"] {
        assert_eq!(origin(&held, name), found(2, "/LEFT/t3.TIFF"));
    }
    // put again in another spelling
    held.drop_override(b"/left/t3.tiff").unwrap();
    held.put_override(b"/left/T3.tIFF", b"a/b").unwrap();
    assert_eq!(origin(&held, "/Left/T3.tiff"), found(2, "/left/T3.tIFF"));
    held.drop_override(b"/left/t3.tiff").unwrap();
    assert_eq!(origin(&held, "/left/t3.tiff"), found(1, "TiFf"));
}

/// The extension follows the last dot of the last segment.
#[test]
fn extensions() {
    let parts = ["/a.x.y", "/b.x/c", "/x", "/d.y.x", "/.x", "/e.é"];
    let held = held(&parts, &["x", "É"], &[]);
    for (name, expected) in [
        ("/a.x.y", found(0, "")),
        ("/b.x/c", found(0, "")),
        ("/x", found(0, "")),
        ("/d.y.x", found(1, "x")),
        ("/.X", found(1, "x")),
        ("/e.é", found(0, "")),
    ] {
        assert_eq!(origin(&held, name), expected, "{name}");
    }
}

/// 4, then 13, then 3 by the key's length; never 14.
#[test]
fn refusals_in_their_order() {
    let parts = ["/a.x", "/b.xyz", "/n", "/p.x/[0].piece"];
    let held = held(
        &parts,
        &["X", "XYZ"],
        &["/A.X", "/p.x", "/none", "/_rels/.rels"],
    );
    for length in [0, 1, 2, 3, 4, 9] {
        let ask = |name: &str| {
            let mut out = vec![b'.'; length];
            let origin = held.type_origin(name.as_bytes(), &mut out);
            let kept = out.iter().all(|&byte| byte == b'.');
            assert_eq!(kept, origin.map_or(true, |origin| origin.length == 0));
            origin
        };
        for name in ["", "/", "a.x", "/a.x/", "/a.x.", "/p.x/[0].piece"] {
            assert_eq!(ask(name), Err(Refusal::NotAPartName), "{name}");
        }
        for name in ["/none", "/p.x", "/c.x", "/_rels/.rels"] {
            assert_eq!(ask(name), Err(Refusal::NotHeld), "{name}");
        }
        for (name, kind, key) in [("/a.X", 2, 4), ("/B.xyz", 1, 3), ("/n", 0, 0)] {
            let expected = match length < key {
                true => Err(Refusal::OutputTooShort(key)),
                false => Ok(Origin { kind, length: key }),
            };
            assert_eq!(ask(name), expected, "{name}");
        }
    }
}

/// Neither comes exactly where there is no media type; the type is that of the
/// entry that is named.
#[test]
fn beside_the_media_type() {
    let parts = ["/a.x", "/b.x", "/c.y", "/d", "/e", "/p.x/[0].last.piece"];
    let (defaults, overrides) = (["X", "z"], ["/A.X", "/D", "/q"]);
    let held = held(&parts, &defaults, &overrides);
    for name in ["/a.x", "/b.x", "/c.y", "/d", "/e", "/p.x", "/q", "x"] {
        let media_type = text(|out| held.media_type(name.as_bytes(), out));
        let at = |keys: &[&str], key: &str| keys.iter().position(|&held| held == key).unwrap();
        let expected = match origin(&held, name) {
            Ok((2, key)) => Ok(format!("o/{}", at(&overrides, &key))),
            Ok((1, key)) => Ok(format!("d/{}", at(&defaults, &key))),
            Ok(_) => Err(14),
            Err(number) => Err(number),
        };
        assert_eq!(media_type, expected, "{name}");
    }
}

/// A part in pieces is asked for by its name; cutting and joining change
/// nothing.
#[test]
fn parts_in_pieces() {
    let mut held = held(&["/A.x/[1].last.piece"], &["X"], &["/B"]);
    assert_eq!(origin(&held, "/a.x"), Err(13));
    assert_eq!(put(&mut held, "/a.X/[0].piece"), 0);
    assert_eq!(origin(&held, "/a.x"), found(1, "X"));
    held.join_part(b"/a.x").unwrap();
    assert_eq!(origin(&held, "/a.x"), found(1, "X"));
    assert_eq!(put(&mut held, "/b"), 0);
    held.cut_part(b"/b", 3).unwrap();
    assert_eq!(origin(&held, "/b"), found(2, "/B"));
}

/// The longest keys: a part name of 255 bytes, an extension of 31.
#[test]
fn the_longest_keys() {
    let name = format!("/{}", "N".repeat(254));
    let extension = "E".repeat(31);
    let other = format!("/t.{}", extension.to_ascii_lowercase());
    let beyond = format!("{other}e");
    let held = held(&[&name, &other, &beyond], &[&extension], &[&name]);
    assert_eq!(origin(&held, &name.to_ascii_lowercase()), found(2, &name));
    assert_eq!(origin(&held, &other), found(1, &extension));
    assert_eq!(origin(&held, &beyond), found(0, ""));
    for (name, length) in [(&name, 255), (&other, 31)] {
        let short = held.type_origin(name.as_bytes(), &mut vec![0; length - 1]);
        assert_eq!(short, Err(Refusal::OutputTooShort(length)));
        let exact = held.type_origin(name.as_bytes(), &mut vec![0; length]);
        assert_eq!(exact.map(|origin| origin.length), Ok(length));
    }
}
