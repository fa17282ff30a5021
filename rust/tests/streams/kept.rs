//! After a refusal every byte of the package is what it was, whatever its state
//! is: with gaps, just gathered, full, or foreign. (`read` checks that.)

use crate::read;
use crate::support::streams::{default, link, part, relationships_of, types_of};
use crate::support::Random;
use reference::examples::streams::{DEFAULT, RELATIONSHIP};
use zombirels::package::{Mode, Package, PackageBuf, OVERHEAD};

#[allow(dead_code)] // its calls are those of other tests
#[path = "../support/foreign.rs"]
mod foreign;

const TYPE: &str = "application/vnd.example.counts+xml";

/// Many good entries, then one that is refused by that number; those before it
/// would change the package a lot.
fn refused_types() -> Vec<(Vec<u8>, u64)> {
    let good = |i: usize| match i % 2 {
        0 => default(format!("new{i}"), "a/b"),
        _ => part(format!("/new/{i}"), "a/b"),
    };
    let goods: Vec<Vec<u8>> = (0..20).map(good).collect();
    let with = |entry: Vec<u8>| types_of(&[&goods[..], &[entry]].concat());
    let mut rows = vec![
        (with(default("", "a/b")), 7),
        (with(part("new", "a/b")), 4),
        (with(part("/new/7", "a/b")), 10),
        (with(default("NEW0", "a/b")), 10),
        (with(b"<x/>".to_vec()), 19),
        (with(b"<p:a>".repeat(16)), 20),
        (b"".to_vec(), 19),
    ];
    let many: Vec<Vec<u8>> = (0..200).map(good).collect();
    rows.push((types_of(&many), 15));
    rows
}

fn refused_links() -> Vec<(Vec<u8>, u64)> {
    let good = |i: usize| link(format!("new{i}"), "a:b", "", "t");
    let goods: Vec<Vec<u8>> = (0..20).map(good).collect();
    let with = |entry: Vec<u8>| relationships_of(&[&goods[..], &[entry]].concat());
    let many: Vec<Vec<u8>> = (0..300).map(good).collect();
    vec![
        (with(link("", "a:b", "", "t")), 8),
        (with(link("a", "a:b", "", "t?")), 9),
        (with(link("a", "a:b", "", "_rels/.rels")), 5),
        (with(good(3)), 10),
        (with(b"a".to_vec()), 19),
        (with(b"<p:a>".repeat(16)), 20),
        (relationships_of(&many), 15),
    ]
}

/// Every refused stream on these bytes, which are then what they were. Where
/// the sets or the charge are full, 15 may come in place of an entry's number.
fn try_all(bytes: &mut [u8], full: bool) {
    let before = bytes.to_vec();
    for (stream, expected) in refused_types() {
        let answer = read(bytes, None, &stream);
        let early = full && answer == 15 && expected < 19;
        assert!(answer == expected || early, "{answer} for {expected}");
    }
    for (stream, expected) in refused_links() {
        for (source, refused) in [(&b"/"[..], 0), (b"/a", 0), (b"a", 4), (b"/_rels/.rels", 5)] {
            let answer = read(bytes, Some(source), &stream);
            let expected = if refused > 0 { refused } else { expected };
            let early = full && answer == 15 && refused == 0 && expected < 19;
            assert!(answer == expected || early, "{answer} for {expected}");
        }
    }
    assert!(*bytes == before);
}

/// Entries of all kinds, so many of each.
fn filled(capacity: u64, count: usize) -> PackageBuf {
    let mut package = PackageBuf::start(capacity).expect("a capacity");
    for i in 0..count {
        package.put_item(format!("/i{i}"), [7; 50]).expect("room");
        package.put_default(format!("e{i}"), TYPE).expect("room");
        package.put_override(format!("/o{i}"), TYPE).expect("room");
        let put = package.put_relationship("/a", format!("r{i}"), "a:b", Mode::Internal, "t");
        put.expect("room");
    }
    package
}

/// Drops every other entry, so that gaps lie between the others.
fn with_gaps(package: &mut PackageBuf, count: usize) {
    for i in (0..count).step_by(2) {
        package.drop_item(format!("/i{i}")).expect("held");
        package.drop_default(format!("e{i}")).expect("held");
        package.drop_override(format!("/o{i}")).expect("held");
        package
            .drop_relationship("/a", format!("r{i}"))
            .expect("held");
    }
}

/// How many bytes of the heap are gaps: where it ends, less those in use, by
/// the header's numbers.
fn gaps(package: &PackageBuf) -> u32 {
    let number = |at: usize| {
        let bytes = &package.as_bytes()[at..at + 4];
        u32::from_le_bytes(bytes.try_into().expect("four bytes"))
    };
    number(20) - number(16)
}

#[test]
fn with_gaps_in_its_heap() {
    for count in [2, 10, 40] {
        // no room at the end: a put would gather the rows
        let charge = filled(20_000, count).totals().expect("a package").charge;
        for spare in [0, 1, 5000] {
            let mut package = filled(charge as u64 + spare, count);
            with_gaps(&mut package, count);
            assert!(gaps(&package) > 0);
            try_all(package.as_bytes_mut(), true);
        }
    }
}

#[test]
fn just_gathered() {
    let count = 40;
    let charge = filled(20_000, count).totals().expect("a package").charge;
    let mut package = filled(charge as u64, count);
    with_gaps(&mut package, count);
    assert!(gaps(&package) > 0);
    package.put_item("/gathers", [8; 1000]).expect("room");
    assert_eq!(gaps(&package), 0);
    try_all(package.as_bytes_mut(), true);
    package.drop_item("/i1").expect("held");
    assert!(gaps(&package) > 0);
    try_all(package.as_bytes_mut(), true);
}

#[test]
fn empty_and_full() {
    let mut package = PackageBuf::start(5000).expect("a capacity");
    try_all(package.as_bytes_mut(), false);
    for capacity in [0, 10, 100] {
        let mut package = PackageBuf::start(capacity).expect("a capacity");
        try_all(package.as_bytes_mut(), true);
    }
    // the sets full
    let mut package = filled(30_000, 64);
    try_all(package.as_bytes_mut(), true);
    // the capacity full
    let charge = package.totals().expect("a package").charge;
    let mut package = filled(charge as u64, 64);
    try_all(package.as_bytes_mut(), true);
}

/// Where the bytes are in no order that a start leaves: random ones behind the
/// heap's end and in unused rows.
#[test]
fn amid_random_bytes() {
    let mut random = Random::new("amid random bytes");
    for _ in 0..200 {
        let capacity = random.pick(&[300, 2000, 9000]);
        let spare = random.pick(&[0, 77]);
        let mut bytes = random.bytes(capacity + OVERHEAD + spare);
        let package = Package::start(&mut bytes, capacity as u64);
        let package = package.expect("room");
        for i in 0..random.below(40) {
            let _ = package.put_default(format!("e{i}"), TYPE);
            let _ = package.put_item(format!("/i{i}"), random.bytes(30));
            if random.once_in(3) {
                let _ = package.drop_item(format!("/i{}", i / 2));
            }
        }
        try_all(&mut bytes, true);
    }
}

/// Foreign buffers that pass for a package: a refusal changes nothing there,
/// and the numbers are those that the call has.
#[test]
fn foreign_buffers() {
    let accepted = [
        (None, DEFAULT.stream(b"$<$e$>"), &[0, 10, 15][..]),
        (
            Some(&b"/"[..]),
            RELATIONSHIP.stream(b"$<$e$>"),
            &[0, 10, 15],
        ),
        (Some(b"/a"), RELATIONSHIP.stream(b"$<$e$>"), &[0, 10, 15]),
    ];
    for kind in &foreign::KINDS {
        for header in foreign::HEADERS {
            for share in [foreign::Share::Heap, foreign::Share::Used] {
                let bytes = foreign::buffer(kind, header, share, 1_200_000);
                let mut package = bytes.clone();
                try_all(&mut package, true);
                for (source, stream, numbers) in &accepted {
                    package.copy_from_slice(&bytes);
                    let answer = read(&mut package, *source, stream);
                    assert!(numbers.contains(&answer), "{}: {answer}", kind.what);
                }
            }
        }
    }
}
