//! Sets that are full, read at the first position, in the middle, at the last.

use crate::{buffer, column, entry, DEFAULTS, ITEMS, OVERRIDES, RELATIONSHIPS};
use zombirels::package::{
    Mode, Package, DEFAULTS_MAX, ITEMS_MAX, OVERRIDES_MAX, RELATIONSHIPS_MAX,
};
use zombirels::Refusal;

/// The numbers below `count`, in an order that is neither up nor down.
fn order(count: usize) -> impl Iterator<Item = usize> {
    (0..count).map(move |i| i * 37 % count)
}

/// Every other name in capitals.
fn spelled(name: String, i: usize) -> String {
    match i % 2 {
        0 => name,
        _ => name.to_ascii_uppercase(),
    }
}

fn item(i: usize) -> String {
    spelled(format!("/tiles/t{i:03}.tiff"), i)
}

fn extension(i: usize) -> String {
    spelled(format!("e{i:02}"), i)
}

fn kind(i: usize) -> String {
    format!("http://example.com/{i}")
}

/// The source of a relationship: four have 64 each.
fn source(i: usize) -> &'static str {
    ["/", "/a", "/B", "/c"][i / 64]
}

fn mode(i: usize) -> Mode {
    match i % 3 {
        0 => Mode::External,
        _ => Mode::Internal,
    }
}

/// A package with as many entries as it holds.
fn fill(package: &mut Package) {
    for i in order(ITEMS_MAX) {
        let put = package.put_item(item(i).as_bytes(), format!("tile {i}").as_bytes());
        put.expect("room");
    }
    for i in order(DEFAULTS_MAX) {
        let put = package.put_default(extension(i).as_bytes(), format!("d/{i}").as_bytes());
        put.expect("room");
    }
    for i in order(OVERRIDES_MAX) {
        let put = package.put_override(item(i).as_bytes(), format!("o/{i}").as_bytes());
        put.expect("room");
    }
    for i in order(RELATIONSHIPS_MAX) {
        let (id, target) = (format!("r{i:03}"), format!("t{i}"));
        let put = package.put_relationship(
            source(i).as_bytes(),
            id.as_bytes(),
            kind(i).as_bytes(),
            mode(i),
            target.as_bytes(),
        );
        put.expect("room");
    }
}

/// The fields of the entry at a position of a set that is full.
fn fields(set: u64, i: usize) -> Vec<String> {
    match set {
        ITEMS => vec![item(i), format!("tile {i}")],
        DEFAULTS => vec![extension(i), format!("d/{i}")],
        OVERRIDES => vec![item(i), format!("o/{i}")],
        _ => {
            let mode = char::from(mode(i).number() as u8);
            let (source, id) = (source(i).to_string(), format!("r{i:03}"));
            vec![source, id, kind(i), mode.to_string(), format!("t{i}")]
        }
    }
}

const COUNTS: [(u64, usize); 4] = [
    (ITEMS, ITEMS_MAX),
    (DEFAULTS, DEFAULTS_MAX),
    (OVERRIDES, OVERRIDES_MAX),
    (RELATIONSHIPS, RELATIONSHIPS_MAX),
];

#[test]
fn full_sets() {
    let mut buffer = buffer(100_000);
    let package = &mut Package::start(&mut buffer, 100_000).expect("room");
    fill(package);
    assert_eq!(package.put_item(b"/x", b""), Err(Refusal::Full));
    for (set, count) in COUNTS {
        for i in [0, 1, count / 2, count - 2, count - 1] {
            for (field, text) in (0..).zip(fields(set, i)) {
                let told = Ok((text.into_bytes(), count));
                assert_eq!(entry(package, set, i as u64, field, 300), told);
            }
        }
        for i in [count, count + 1] {
            assert_eq!(entry(package, set, i as u64, 0, 300), Err((13, 0)));
        }
    }
}

/// All of them, by each field.
#[test]
fn every_entry() {
    let mut buffer = buffer(100_000);
    let package = &mut Package::start(&mut buffer, 100_000).expect("room");
    fill(package);
    for (set, count) in COUNTS {
        let width = fields(set, 0).len();
        for field in 0..width {
            let right: Vec<String> = (0..count).map(|i| fields(set, i).remove(field)).collect();
            assert_eq!(column(package, set, field as u64), right);
        }
    }
}

/// A part in 256 pieces, put from the last one to the first.
#[test]
fn pieces_of_one_part() {
    let mut buffer = buffer(10_000);
    let package = &mut Package::start(&mut buffer, 10_000).expect("room");
    let piece = |i: usize| match i {
        255 => spelled("/t/[255].last.piece".to_string(), i),
        _ => spelled(format!("/t/[{i}].piece"), i),
    };
    for i in (0..ITEMS_MAX).rev() {
        let put = package.put_item(piece(i).as_bytes(), [i as u8]);
        put.expect("room");
    }
    let names: Vec<String> = (0..ITEMS_MAX).map(piece).collect();
    assert_eq!(column(package, ITEMS, 0), names);
    for i in 0..ITEMS_MAX {
        let told = Ok((vec![i as u8], ITEMS_MAX));
        assert_eq!(entry(package, ITEMS, i as u64, 1, 1), told);
    }
}
