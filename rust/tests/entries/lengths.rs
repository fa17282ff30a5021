//! Outputs of each length, and the longest fields.

use crate::{buffer, entry, DEFAULTS, ITEMS, OVERRIDES, RELATIONSHIPS};
use zombirels::package::{Mode, Package, CAPACITY_MAX};

/// A field of a set's only entry with outputs of each length up to some more
/// than it has: below it 3 and the length that is needed, from there on the
/// field.
fn every_length(package: &Package, set: u64, field: u64, bytes: &[u8]) {
    let short = 0..bytes.len();
    let enough = bytes.len()..bytes.len() + 40;
    for lent in short {
        let needed = Err((3, bytes.len()));
        assert_eq!(entry(package, set, 0, field, lent), needed, "{lent}");
    }
    for lent in enough.chain([1000, 70_000]) {
        let told = Ok((bytes.to_vec(), 1));
        assert_eq!(entry(package, set, 0, field, lent), told, "{lent}");
    }
}

#[test]
fn short_fields() {
    let mut buffer = buffer(100);
    let package = &mut Package::start(&mut buffer, 100).expect("room");
    package.put_item(b"/A/[7].Piece", b"tile").expect("room");
    package.put_default(b"X", b"a/b").expect("room");
    package.put_override(b"/B", b"a/b;c=d").expect("room");
    let put = package.put_relationship(b"/", b"_", b"a:", Mode::External, b"?");
    put.expect("room");
    every_length(package, ITEMS, 0, b"/A/[7].Piece");
    every_length(package, ITEMS, 1, b"tile");
    every_length(package, DEFAULTS, 0, b"X");
    every_length(package, DEFAULTS, 1, b"a/b");
    every_length(package, OVERRIDES, 0, b"/B");
    every_length(package, OVERRIDES, 1, b"a/b;c=d");
    let fields: [&[u8]; 5] = [b"/", b"_", b"a:", b"\x01", b"?"];
    for (field, bytes) in (0..).zip(fields) {
        every_length(package, RELATIONSHIPS, field, bytes);
    }
}

/// Names of 255 bytes, with a suffix of 18 more, and all other fields as long
/// as they can be.
#[test]
fn the_longest_fields() {
    let filled = |start: &str, length: usize| {
        let fill = "N".repeat(length - start.len());
        format!("{start}{fill}").into_bytes()
    };
    let name = filled("/", 255);
    let item = [&name[..], b"/[9999].LAST.piece"].concat();
    let (extension, media_type) = (filled("", 31), filled("a/", 127));
    let (id, kind, target) = (filled("_", 63), filled("a:", 255), filled("b:", 255));
    let mut buffer = buffer(2000);
    let package = &mut Package::start(&mut buffer, 2000).expect("room");
    package.put_item(&item, [7; 300]).expect("room");
    package.put_default(&extension, &media_type).expect("room");
    package.put_override(&name, &media_type).expect("room");
    let put = package.put_relationship(&name, &id, &kind, Mode::External, &target);
    put.expect("room");
    assert_eq!(item.len(), 273);
    every_length(package, ITEMS, 0, &item);
    every_length(package, ITEMS, 1, &[7; 300]);
    every_length(package, DEFAULTS, 0, &extension);
    every_length(package, DEFAULTS, 1, &media_type);
    every_length(package, OVERRIDES, 0, &name);
    every_length(package, OVERRIDES, 1, &media_type);
    let fields: [&[u8]; 5] = [&name, &id, &kind, &[1], &target];
    for (field, bytes) in (0..).zip(fields) {
        every_length(package, RELATIONSHIPS, field, bytes);
    }
}

/// One item that leaves no room.
#[test]
fn the_longest_content() {
    let most = CAPACITY_MAX as usize;
    let content: Vec<u8> = (0..most - 2).map(|i| (i % 251) as u8).collect();
    let mut buffer = buffer(most);
    let package = &mut Package::start(&mut buffer, CAPACITY_MAX).expect("room");
    package.put_item(b"/a", &content).expect("room");
    let told = Ok((content.clone(), 1));
    for lent in [most - 2, most - 1, most + 5000] {
        assert!(entry(package, ITEMS, 0, 1, lent) == told);
    }
    for lent in [0, 1, 4096, most - 3] {
        assert_eq!(entry(package, ITEMS, 0, 1, lent), Err((3, most - 2)));
    }
}
