//! Outputs of each length, and the longest keys.

use crate::{buffer, Pair};

/// A part with outputs of each length up to some more than its key has: below
/// it 3 and the length that is needed, from there on the key.
fn every_length(pair: &Pair, name: &[u8], kind: u64, key: &[u8]) {
    let lengths = (0..=key.len() + 40).chain([127, 128, 254, 255, 256, 1000, 70_000]);
    for lent in lengths {
        let expected = match lent < key.len() {
            true => Err((3, key.len() as u64)),
            false => Ok((kind, key.to_vec())),
        };
        assert_eq!(pair.origin(name, lent), expected, "{lent}");
    }
}

#[test]
fn short_keys() {
    let mut buffer = buffer(1000);
    let parts = ["/a", "/b.x", "/c.tiff", "/none", "/none.y"];
    let pair = Pair::with(&mut buffer, &parts, &["X", "Tiff"], &["/A"]);
    every_length(&pair, b"/a", 2, b"/A");
    every_length(&pair, b"/b.x", 1, b"X");
    every_length(&pair, b"/c.tiff", 1, b"Tiff");
    every_length(&pair, b"/none", 0, b"");
    every_length(&pair, b"/NONE.Y", 0, b"");
}

/// Part names of 255 bytes, one segment or many, and extensions of 31 bytes,
/// that of a name of 255 bytes, too.
#[test]
fn the_longest_keys() {
    let one = format!("/{}", "N".repeat(254));
    let many = format!("{}/Tc", "/b".repeat(126));
    let extension = "E".repeat(31);
    let short = format!("/t.{extension}");
    let long = format!("/{}.{extension}", "t".repeat(222));
    let names = [&one, &many, &long].map(String::len);
    assert_eq!(names, [255; 3]);
    let parts: [&str; 4] = [&one, &many, &short, &long];
    let mut buffer = buffer(5000);
    let mut pair = Pair::with(&mut buffer, &parts, &[&extension], &[&one, &many]);
    for name in [&one, &many] {
        every_length(
            &pair,
            &name.to_ascii_lowercase().into_bytes(),
            2,
            name.as_bytes(),
        );
    }
    for name in [&short, &long] {
        let name = name.to_ascii_lowercase().into_bytes();
        every_length(&pair, &name, 1, extension.as_bytes());
    }
    pair.put_override(long.as_bytes(), b"a/b");
    every_length(&pair, long.as_bytes(), 2, long.as_bytes());
}

/// The type's length has no part in it: a short key of the longest type, and a
/// long key of the shortest.
#[test]
fn keys_and_types_of_other_lengths() {
    let long_type = [&b"a/"[..], &b"b".repeat(125)].concat();
    let long_name = format!("/{}", "n".repeat(100));
    let mut buffer = buffer(1000);
    let mut pair = Pair::with(&mut buffer, &["/a", &long_name], &[], &[]);
    pair.put_override(b"/A", &long_type);
    pair.put_override(long_name.as_bytes(), b"a/b");
    every_length(&pair, b"/a", 2, b"/A");
    every_length(&pair, long_name.as_bytes(), 2, long_name.as_bytes());
}
