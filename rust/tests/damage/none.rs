//! Buffers that are no package.

use crate::support::{self, Random};
use crate::{real_package, watch, CALLS, ENDED, HEADER, MARK};
use reference::examples::streams::{DEFAULT, RELATIONSHIP};
use std::sync::atomic::Ordering;
use zombirels::package::{Mode, Package, Totals, CAPACITY_MAX, OVERHEAD};
use zombirels::Refusal;

/// How many calls are made on each buffer.
const NONE_CALLS: usize = 32;

fn types() -> Vec<u8> {
    DEFAULT.stream(b"$<$e$>")
}

fn links() -> Vec<u8> {
    RELATIONSHIP.stream(b"$<$e$>")
}

/// Each of these calls on the buffer gives 1, and the view is empty.
fn is_no_package(buffer: &mut [u8]) {
    let before = buffer.to_vec();
    let package = Package::open_mut(buffer);
    let mut out = [7; 40];
    let one = Refusal::NotAPackage;
    assert_eq!(package.put_item(b"/a", b"x"), Err(one));
    assert_eq!(package.put_item(b"no name", b"x"), Err(one));
    assert_eq!(package.drop_item(b"/a"), Err(one));
    assert_eq!(package.find_item(b"/a"), Err(one));
    assert_eq!(package.view_item(b"/a"), None);
    assert_eq!(package.read_part(b"/a", 0, &mut out), Err(one));
    assert_eq!(package.read_part(b"", u64::MAX, &mut out), Err(one));
    assert_eq!(package.part_at(0, &mut out), Err(one));
    assert_eq!(package.cut_part(b"/a", 2), Err(one));
    assert_eq!(package.cut_part(b"no name", 0), Err(one));
    assert_eq!(package.join_part(b"/a"), Err(one));
    assert_eq!(package.join_part(b"no name"), Err(one));
    assert_eq!(package.totals(), Err(one));
    assert_eq!(package.entry_at(0, 0, 0, &mut out), Err(one));
    assert_eq!(package.entry_at(4, u64::MAX, 9, &mut []), Err(one));
    assert_eq!(package.put_default(b"e", b"a/b"), Err(one));
    assert_eq!(package.drop_default(b"no.extension"), Err(one));
    assert_eq!(package.put_override(b"/a", b"a/b"), Err(one));
    assert_eq!(package.drop_override(b"no name"), Err(one));
    assert_eq!(package.media_type(b"/a", &mut out), Err(one));
    assert_eq!(package.type_origin(b"/a", &mut out), Err(one));
    assert_eq!(package.type_origin(b"no name", &mut []), Err(one));
    assert_eq!(package.write_types(&mut out), Err(one));
    assert_eq!(package.write_relationships(b"no", &mut out), Err(one));
    assert_eq!(package.read_types(types()), Err(one));
    assert_eq!(package.read_types(b"no stream"), Err(one));
    assert_eq!(package.read_relationships(b"/", links()), Err(one));
    assert_eq!(package.read_relationships(b"no", b"no stream"), Err(one));
    let put = package.put_relationship(b"/", b"r", b"a:", Mode::Internal, b"b");
    assert_eq!(put, Err(one));
    assert_eq!(package.drop_relationship(b"/", b"r"), Err(one));
    let resolved = package.resolve_relationship(b"/", b"r", b"a:", &mut out);
    assert_eq!(resolved, Err(one));
    assert_eq!(out, [7; 40]);
    let capacity = CAPACITY_MAX + 1;
    assert_eq!(package.restart(capacity), Err(Refusal::BadStart));
    assert!(*buffer == before);
    ENDED.fetch_add(NONE_CALLS, Ordering::Relaxed);
}

/// A buffer below 32,768 bytes is no package, whatever it holds; neither is
/// one of zeros only.
#[test]
fn short_buffers_and_zeros() {
    watch();
    let mut random = Random::new("short buffers and zeros");
    let mut count = 0;
    let calls = support::count("ZOMBIRELS_CALLS", CALLS);
    let step = 1 + 33 * OVERHEAD / calls;
    let empty = Totals {
        items: 0,
        parts: 0,
        charge: 0,
    };
    for length in (0..200)
        .chain((200..OVERHEAD).step_by(step))
        .chain([OVERHEAD - 1])
    {
        let mut package = real_package(&mut random);
        package[MARK..HEADER].fill(0); // an empty package, but for its length
        assert_eq!(Package::open(&package).totals(), Ok(empty));
        let mut short: Box<[u8]> = package[..length].into();
        is_no_package(&mut short);
        assert_eq!(Package::start(&mut short, 0).err(), Some(Refusal::BadStart));
        let mut random_bytes = random.bytes(length).into_boxed_slice();
        is_no_package(&mut random_bytes);
        let more = random.below(40_000);
        let mut zeros = vec![0; length + more].into_boxed_slice();
        is_no_package(&mut zeros);
        count += 3;
    }
    let greatest = OVERHEAD + CAPACITY_MAX as usize;
    for length in [OVERHEAD, OVERHEAD + 1, greatest, greatest + 1] {
        is_no_package(&mut vec![0; length]);
        is_no_package(&mut vec![255; length]);
        count += 2;
    }
    println!(
        "short buffers and zeros: {count} buffers, {} calls",
        count * NONE_CALLS
    );
    // as many as are asked for, or all lengths
    assert!(count * NONE_CALLS >= calls || count > 3 * OVERHEAD);
}
