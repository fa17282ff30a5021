//! The refusals, and which of them goes first.

use crate::support::entries::Ask;
use crate::{asked, buffer, entry, Answer, WIDTHS};
use zombirels::package::{Mode, Package, OVERHEAD};

/// Numbers that are no set, no position of a small one, no field.
const FAR: [u64; 6] = [9, 255, 1 << 32, (1 << 32) + 1, 1 << 63, u64::MAX];

/// A package with two entries in each set.
fn two_of_each(buffer: &mut [u8]) {
    let package = &mut Package::start(buffer, 1000).expect("room");
    for (name, extension) in [(b"/a", b"x"), (b"/b", b"y")] {
        package.put_item(name, b"tile").expect("room");
        package.put_default(extension, b"a/b").expect("room");
        package.put_override(name, b"a/b").expect("room");
        let put = package.put_relationship(name, b"r", b"t:", Mode::Internal, b"c");
        put.expect("room");
    }
}

fn of(package: &[u8], set: u64, position: u64, field: u64, lent: usize) -> Answer {
    let ask = Ask {
        set,
        position,
        field,
        lent,
    };
    asked(package, ask)
}

/// Refusal 1 goes before all others, even where the set, the field and the
/// position are none.
#[test]
fn no_package() {
    let mut package = buffer(1000);
    two_of_each(&mut package);
    assert_eq!(of(&package, 0, 0, 0, 2), Ok((b"/a".to_vec(), 2)));
    let mut unmarked = package.clone();
    unmarked[0] ^= 1;
    let zeros = vec![0; OVERHEAD + 1000];
    let none: [&[u8]; 6] = [
        &[],
        &[0; 100],
        &package[..64],
        &package[..OVERHEAD - 1],
        &zeros,
        &unmarked,
    ];
    for bytes in none {
        for set in [0, 1, 2, 3, 4, 5, u64::MAX] {
            for (position, field) in [(0, 0), (0, 9), (7, 1), (u64::MAX, u64::MAX)] {
                for lent in [0, 300] {
                    assert_eq!(of(bytes, set, position, field, lent), Err((1, 0)));
                }
            }
        }
    }
}

/// Refusal 8 goes before 13 and 3: no such set, or no such field, whatever the
/// position and the output are.
#[test]
fn no_set_or_field() {
    let (mut full, mut empty) = (buffer(1000), buffer(0));
    two_of_each(&mut full);
    Package::start(&mut empty, 0).expect("room");
    for package in [&full, &empty] {
        for lent in [0, 1, 300] {
            for position in [0, 1, 2, 3].into_iter().chain(FAR) {
                for set in [4, 5].into_iter().chain(FAR) {
                    for field in [0, 1, 4, 5].into_iter().chain(FAR) {
                        assert_eq!(of(package, set, position, field, lent), Err((8, 0)));
                    }
                }
                for (set, width) in (0..).zip(WIDTHS) {
                    for field in [width, width + 1].into_iter().chain(FAR) {
                        assert_eq!(of(package, set, position, field, lent), Err((8, 0)));
                    }
                }
            }
        }
    }
}

/// Refusal 13 goes before 3: past the last entry no output is too short.
#[test]
fn no_position() {
    let (mut full, mut empty) = (buffer(1000), buffer(0));
    two_of_each(&mut full);
    Package::start(&mut empty, 0).expect("room");
    for (set, width) in (0..).zip(WIDTHS) {
        for field in 0..width {
            for lent in [0, 1, 300] {
                for position in [2, 3].into_iter().chain(FAR) {
                    assert_eq!(of(&full, set, position, field, lent), Err((13, 0)));
                }
                for position in [0, 1, 2].into_iter().chain(FAR) {
                    assert_eq!(of(&empty, set, position, field, lent), Err((13, 0)));
                }
            }
        }
    }
}

/// A set may be empty while others are not.
#[test]
fn sets_by_themselves() {
    let mut buffer = buffer(100);
    let package = &mut Package::start(&mut buffer, 100).expect("room");
    package.put_override(b"/a", b"a/b").expect("room");
    for (set, expected) in [(0, 13), (1, 13), (2, 0), (3, 13)] {
        let number = entry(package, set, 0, 0, 300).map_or_else(|(number, _)| number, |_| 0);
        assert_eq!(number, expected, "set {set}");
    }
    package.put_default(b"x", b"a/b").expect("room");
    assert_eq!(entry(package, 1, 0, 0, 1), Ok((b"x".to_vec(), 1)));
    assert_eq!(entry(package, 2, 0, 0, 2), Ok((b"/a".to_vec(), 1)));
    assert_eq!(entry(package, 2, 1, 0, 2), Err((13, 0)));
    assert_eq!(entry(package, 2, 1, 2, 0), Err((8, 0)));
}
