//! The limits of a package: its sets and its charge, by hand.

mod support;

use support::{numbers, Random};
use zombirels::package::{
    Mode, Package, CAPACITY_MAX, DEFAULTS_MAX, ITEMS_MAX, OVERHEAD, OVERRIDES_MAX,
    RELATIONSHIPS_MAX,
};

/// The set of items at its limit, by hand.
#[test]
fn items_at_the_limit() {
    let mut buffer = vec![0; 10_000 + OVERHEAD];
    let package = Package::start(&mut buffer, 10_000).expect("room");
    let name = |i: usize| format!("/t{i}").into_bytes();
    for i in 0..ITEMS_MAX {
        package.put_item(name(i), b"x").expect("room");
    }
    let full = Err((15, 0));
    assert_eq!(package.put_item(name(256), b"").map_err(numbers), full);
    assert_eq!(
        package.put_item(name(0), b"").map_err(numbers),
        Err((10, 0))
    );
    assert_eq!(package.totals().expect("a package").items, ITEMS_MAX);
    package.drop_item(b"/T100").expect("held");
    assert_eq!(package.put_item(name(256), b"last"), Ok(()));
    assert_eq!(package.put_item(name(100), b"x").map_err(numbers), full);
    assert_eq!(package.view_item(b"/t256"), Some(&b"last"[..]));
}

/// The sets of Defaults, Overrides and relationships at their limits, by hand.
#[test]
fn fields_at_the_limit() {
    let mut buffer = vec![0; 20_000 + OVERHEAD];
    let package = Package::start(&mut buffer, 20_000).expect("room");
    let text = |start: &str, i: usize| format!("{start}{i}").into_bytes();
    let relate = |package: &mut Package, i| {
        package.put_relationship(b"/a", text("r", i), b"k:", Mode::Internal, b"b")
    };
    for i in 0..DEFAULTS_MAX {
        package.put_default(text("e", i), b"a/b").expect("room");
    }
    for i in 0..OVERRIDES_MAX {
        package.put_override(text("/n", i), b"a/b").expect("room");
    }
    for i in 0..RELATIONSHIPS_MAX {
        relate(package, i).expect("room");
    }
    for i in 0..ITEMS_MAX {
        package.put_item(text("/n", i), b"x").expect("room");
    }
    let (full, taken) = (Err((15, 0)), Err((10, 0)));
    let last = DEFAULTS_MAX;
    let default = package.put_default(text("e", last), b"a/b");
    assert_eq!(default.map_err(numbers), full);
    let default = package.put_default(b"E0", b"a/b");
    assert_eq!(default.map_err(numbers), taken);
    let last = OVERRIDES_MAX;
    let name = package.put_override(text("/n", last), b"a/b");
    assert_eq!(name.map_err(numbers), full);
    assert_eq!(package.put_override(b"/N0", b"a/b").map_err(numbers), taken);
    let last = RELATIONSHIPS_MAX;
    assert_eq!(relate(package, last).map_err(numbers), full);
    assert_eq!(relate(package, 0).map_err(numbers), taken);
    package.drop_default(b"E7").expect("held");
    package.drop_override(b"/N7").expect("held");
    package.drop_relationship(b"/A", b"r7").expect("held");
    assert_eq!(
        package.put_default(b"new.", b"a/b").map_err(numbers),
        Err((7, 0))
    );
    assert_eq!(package.put_default(b"new", b"a/b"), Ok(()));
    assert_eq!(package.put_override(b"/new", b"a/b"), Ok(()));
    assert_eq!(relate(package, last), Ok(()));
    let mut out = [0; 3];
    assert_eq!(package.media_type(b"/n8", &mut out), Ok(3));
    assert_eq!(&out, b"a/b");
    let none = package.media_type(b"/n7", &mut out).map_err(numbers);
    assert_eq!(none, Err((14, 0)));
}

/// The charge at exactly C and one above, for every C up to 600, with the
/// bytes of dropped items used again.
#[test]
fn charge_at_the_limit() {
    let mut buffer = vec![0; 600 + OVERHEAD];
    for capacity in 2..=600 {
        let lent = &mut buffer[..capacity + OVERHEAD];
        let package = Package::start(lent, capacity as u64).expect("room");
        let bytes = vec![b'x'; capacity - 1];
        for name in [b"/a", b"/b", b"/c"] {
            assert_eq!(
                package.put_item(name, &bytes).map_err(numbers),
                Err((15, 0))
            );
            assert_eq!(package.put_item(name, &bytes[..capacity - 2]), Ok(()));
            assert_eq!(package.totals().expect("a package").charge, capacity);
            assert_eq!(package.view_item(name), Some(&bytes[..capacity - 2]));
            package.drop_item(name).expect("held");
        }
    }
}

/// The greatest package: a million bytes, full to the last one, with gaps
/// filled again.
#[test]
fn the_greatest_package() {
    let mut random = Random::new("the greatest package");
    let capacity = CAPACITY_MAX as usize;
    let mut buffer = vec![0; capacity + OVERHEAD];
    let package = Package::start(&mut buffer, CAPACITY_MAX).expect("room");
    let name = |i: usize| format!("/{i:03}").into_bytes();
    let size = capacity / 250 - 4;
    let mut tiles: Vec<Vec<u8>> = (0..250).map(|_| random.bytes(size)).collect();
    for (i, tile) in tiles.iter().enumerate() {
        package.put_item(name(i), tile).expect("room");
    }
    assert_eq!(package.totals().expect("a package").charge, capacity);
    assert_eq!(package.put_item(b"/x", b"").map_err(numbers), Err((15, 0)));
    // two tiles give way to one of their size together, and back
    for round in 0..20 {
        let i = random.below(249);
        package.drop_item(name(i)).expect("held");
        package.drop_item(name(i + 1)).expect("held");
        let large = random.bytes(2 * size + 8 - 2);
        package.put_item(b"/L", &large).expect("room");
        assert_eq!(package.view_item(b"/l"), Some(&large[..]), "round {round}");
        package.drop_item(b"/l").expect("held");
        for i in [i + 1, i] {
            tiles[i] = random.bytes(size);
            package.put_item(name(i), &tiles[i]).expect("room");
        }
        for (i, tile) in tiles.iter().enumerate() {
            assert!(
                package.view_item(name(i)) == Some(tile),
                "round {round}, tile {i}"
            );
        }
    }
    println!("the greatest package: 20 rounds, 250 tiles viewed in each");
}
