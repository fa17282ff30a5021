//! Bytes that no calls made: iterators end and yield as many as they said, and
//! nothing panics.

use crate::exact;
use crate::held::Held;
use crate::support::{count, Random};
use std::io::{Read, Seek, SeekFrom};
use zombirels::package::{Package, PackageBuf, CAPACITY_MAX, OVERHEAD};
use zombirels::Refusal;

#[allow(dead_code)] // its calls are others
#[path = "../support/foreign.rs"]
mod foreign;

/// The bytes of a foreign buffer's heap.
const HEAP: usize = CAPACITY_MAX as usize;

/// Asks for everything. Answers how many items were yielded.
fn ask_all(package: &Package) -> Result<usize, Refusal> {
    let items = exact(package.items()?);
    for item in &items {
        assert!(item.bytes.len() <= package.as_bytes().len());
    }
    exact(package.defaults()?);
    exact(package.overrides()?);
    for link in exact(package.relationships()?) {
        let (source, id) = (&link.source, &link.id);
        package
            .resolve_relationship_to_string(source, id, "a:b")
            .ok();
        if let Ok(links) = package.relationships_of(&link.source) {
            exact(links);
        }
    }
    let parts = exact(package.parts()?);
    assert_eq!(parts.len(), package.totals()?.parts);
    for part in &parts {
        let _ = (part.media_type(), part.type_origin());
        if let Ok(named) = package.part(part.name()) {
            exact(named.items());
        }
        assert!(part.to_vec().len() <= package.as_bytes().len());
        exact(part.items());
        exact(part.relationships());
        let mut reader = part.reader();
        reader.seek(SeekFrom::End(-1)).ok();
        assert!(reader.read(&mut [0; 10]).unwrap_or_default() <= 10);
    }
    assert!(package.unfinished()?.count() <= items.len());
    package.part_at_to_string(0).ok();
    package.write_types_to_string().ok();
    package.write_relationships_to_string("/").ok();
    Ok(items.len())
}

/// Rows that lie in one place, or in none.
#[test]
fn foreign_buffers() {
    let mut yielded = 0;
    for kind in &foreign::KINDS {
        for header in foreign::HEADERS {
            for share in [foreign::Share::Heap, foreign::Share::Used] {
                let buffer = foreign::buffer(kind, header, share, HEAP);
                let items = ask_all(Package::open(&buffer));
                yielded += items.expect("passes for a package");
            }
        }
    }
    println!("foreign buffers: {yielded} items");
    assert!(yielded > 0);
}

/// Packages with bytes changed in header, table and heap.
#[test]
fn damaged_packages() {
    let mut random = Random::new("damaged packages");
    let (mut yielded, mut none) = (0, 0);
    let rounds = count("ZOMBIRELS_CALLS", 100_000) / 50;
    for _ in 0..rounds {
        let calls = 20 + random.below(60);
        let mut bytes = Held::new(&mut random, 2000, calls).package.into_bytes();
        for _ in 0..1 + random.below(6) {
            let at = match random.below(8) {
                0 => 12 + random.below(12),
                1..=4 => 64 + random.below(2000),
                _ => OVERHEAD + random.below(400),
            };
            bytes[at] = random.pick(&[0, 1, 255, bytes[at] ^ 0x20, bytes[at].wrapping_add(1)]);
        }
        match ask_all(Package::open(&bytes)) {
            Ok(items) => yielded += items,
            Err(refusal) => {
                assert_eq!(refusal, Refusal::NotAPackage);
                assert!(Package::try_open(&bytes).is_err());
                none += 1;
            }
        }
    }
    println!("damaged packages: {rounds} of them, {none} none, {yielded} items");
    assert!(yielded > 0 && none > 0 && none < rounds);
}

/// A name that is no UTF-8: replaced by an iterator, refused as a text.
#[test]
fn no_text() {
    let mut slide = PackageBuf::start(100).expect("a capacity");
    slide.put_item("/tile", "bytes").expect("room");
    slide.put_default("x", "a/b").expect("room");
    let mut bytes = slide.into_bytes();
    for at in OVERHEAD..bytes.len() {
        if bytes[at..].starts_with(b"tile") || bytes[at..].starts_with(b"a/b") {
            bytes[at] = 0xFF;
        }
    }
    let slide = Package::try_open(&bytes).expect("passes for a package");
    let names: Vec<String> = slide
        .items()
        .expect("a package")
        .map(|item| item.name)
        .collect();
    assert_eq!(names, ["/\u{FFFD}ile"]);
    let defaults = exact(slide.defaults().expect("a package"));
    assert_eq!(defaults[0].media_type, "\u{FFFD}/b");
    let refused = Some(Refusal::NotAPackage);
    assert_eq!(slide.write_types_to_string().err(), refused);
    assert_eq!(slide.part_at_to_string(0).err(), refused);
    assert_eq!(exact(slide.parts().expect("a package")).len(), 1);
}
