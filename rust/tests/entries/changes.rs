//! Positions and counts after puts, drops, cuts, joins and a start.

use crate::{buffer, column, entry, DEFAULTS, ITEMS, OVERRIDES, RELATIONSHIPS};
use zombirels::package::{Mode, Package};

/// The fields that are told in the given order: the names of the items, the
/// keys of the types, the ids.
fn keys(package: &Package) -> [String; 4] {
    [
        (ITEMS, 0),
        (DEFAULTS, 0),
        (OVERRIDES, 0),
        (RELATIONSHIPS, 1),
    ]
    .map(|(set, field)| column(package, set, field).join(" "))
}

/// How many entries each set has, as each of them tells it; 0 if it has none.
fn counts(package: &Package) -> [usize; 4] {
    [ITEMS, DEFAULTS, OVERRIDES, RELATIONSHIPS]
        .map(|set| entry(package, set, 0, 0, 300).map_or(0, |(_, entries)| entries))
}

/// Five entries in each set, put in another order than that of their keys.
fn put_five(package: &mut Package) {
    for i in [3, 1, 4, 0, 2] {
        let text = format!("/T{i}").into_bytes();
        package.put_item(&text, &text).expect("room");
        package.put_default(&text[1..], b"a/b").expect("room");
        package.put_override(&text, b"a/b").expect("room");
        let put = package.put_relationship(b"/", &text[1..], b"a:", Mode::Internal, b"b");
        put.expect("room");
    }
}

#[test]
fn puts_and_drops() {
    let mut buffer = buffer(1000);
    let package = &mut Package::start(&mut buffer, 1000).expect("room");
    assert_eq!(counts(package), [0; 4]);
    put_five(package);
    let all = ["/T0 /T1 /T2 /T3 /T4", "T0 T1 T2 T3 T4"];
    assert_eq!(keys(package), [all[0], all[1], all[0], all[1]]);
    assert_eq!(counts(package), [5; 4]);
    // a refused put or drop changes no position
    assert!(package.put_item(b"/t2", b"").is_err());
    assert!(package.drop_item(b"/t9").is_err());
    assert_eq!(keys(package), [all[0], all[1], all[0], all[1]]);
    package.drop_item(b"/t2").expect("held");
    assert_eq!(counts(package), [4, 5, 5, 5]);
    package.drop_default(b"t0").expect("held");
    assert_eq!(counts(package), [4, 4, 5, 5]);
    package.drop_override(b"/t4").expect("held");
    assert_eq!(counts(package), [4, 4, 4, 5]);
    package.drop_relationship(b"/", b"T3").expect("held");
    assert_eq!(counts(package), [4; 4]);
    let left = [
        "/T0 /T1 /T3 /T4",
        "T1 T2 T3 T4",
        "/T0 /T1 /T2 /T3",
        "T0 T1 T2 T4",
    ];
    assert_eq!(keys(package), left);
    // the same key again, in another spelling
    package.put_item(b"/t2", b"").expect("room");
    package.put_default(b"t0", b"c/d").expect("room");
    let again = ["/T0 /T1 /t2 /T3 /T4", "t0 T1 T2 T3 T4", left[2], left[3]];
    assert_eq!(keys(package), again);
    assert_eq!(counts(package), [5, 5, 4, 4]);
    assert_eq!(package.totals().map(|totals| totals.items), Ok(5));
}

#[test]
fn cuts_and_joins() {
    let mut buffer = buffer(1000);
    let package = &mut Package::start(&mut buffer, 1000).expect("room");
    for (name, content) in [("/c", "c"), ("/B", "0123456"), ("/a", "a")] {
        let put = package.put_item(name.as_bytes(), content.as_bytes());
        put.expect("room");
    }
    package.cut_part(b"/b", 3).expect("room");
    let names = [
        "/a",
        "/B/[0].piece",
        "/B/[1].piece",
        "/B/[2].last.piece",
        "/c",
    ];
    assert_eq!(column(package, ITEMS, 0), names);
    assert_eq!(column(package, ITEMS, 1), ["a", "012", "34", "56", "c"]);
    assert_eq!(counts(package), [5, 0, 0, 0]);
    package.join_part(b"/b").expect("in pieces");
    assert_eq!(column(package, ITEMS, 0), ["/a", "/B", "/c"]);
    assert_eq!(column(package, ITEMS, 1), ["a", "0123456", "c"]);
    assert_eq!(counts(package), [3, 0, 0, 0]);
    package.cut_part(b"/B", 12).expect("room");
    assert_eq!(counts(package), [14, 0, 0, 0]);
    let told = Ok((b"/B/[9].piece".to_vec(), 14));
    assert_eq!(entry(package, ITEMS, 10, 0, 300), told);
    let told = Ok((b"/B/[10].piece".to_vec(), 14));
    assert_eq!(entry(package, ITEMS, 11, 0, 300), told);
    assert_eq!(entry(package, ITEMS, 10, 1, 0), Ok((vec![], 14)));
}

/// A start leaves no entry.
#[test]
fn starts() {
    let mut buffer = buffer(100);
    let package = &mut Package::start(&mut buffer, 100).expect("room");
    package.put_item(b"/a", b"tile").expect("room");
    assert_eq!(counts(package), [1, 0, 0, 0]);
    let package = &mut Package::start(&mut buffer, 100).expect("room");
    assert_eq!(counts(package), [0; 4]);
    assert_eq!(entry(package, ITEMS, 0, 0, 300), Err((13, 0)));
    package.put_item(b"/b", b"").expect("room");
    assert_eq!(column(package, ITEMS, 0), ["/b"]);
}
