//! The capacity and the set of items at their limits.

use crate::support::pieces::cost;
use crate::{buffer, Pair};

/// Each number of pieces in a package that just takes them, and in one that
/// lacks a byte; parts of no bytes and of some.
#[test]
fn capacity_of_every_cut() {
    for count in 1..=256 {
        for (name, size) in [(&b"/a"[..], 0), (b"/tile", 5), (b"/tiles/L3.tiff", 300)] {
            let bytes: Vec<u8> = (0..size).map(|i| i as u8).collect();
            let capacity = name.len() + size + cost(name.len(), count);
            let mut short = buffer(capacity - 1);
            let mut pair = Pair::start(&mut short);
            pair.put(name, &bytes);
            assert_eq!(pair.cut(name, count as u64), Err(15), "{count}");
            pair.check();

            let mut exact = buffer(capacity);
            let mut pair = Pair::start(&mut exact);
            pair.put(name, &bytes);
            let expected = (size / count, size % count);
            assert_eq!(pair.cut(name, count as u64), Ok(expected));
            assert_eq!(pair.charge(), capacity);
            pair.check();
            assert_eq!(pair.join(name), Ok((0, 0)));
            assert_eq!(pair.charge(), name.len() + size);
            pair.check();
        }
    }
}

/// A whole part among 0 to 255 other items: they leave room for so many pieces
/// and no more.
#[test]
fn items_of_every_cut() {
    let mut buffer = buffer(20_000);
    let mut pair = Pair::start(&mut buffer);
    pair.put(b"/tile", &[7; 1000]);
    for others in 0..256 {
        let most = 256 - others;
        assert_eq!(
            pair.cut(b"/TILE", most + 1),
            Err(if others == 0 { 17 } else { 15 })
        );
        let expected = (1000 / most as usize, 1000 % most as usize);
        assert_eq!(pair.cut(b"/TILE", most), Ok(expected));
        assert_eq!(pair.package.totals().expect("a package").items, 256);
        pair.check();
        assert_eq!(pair.join(b"/TILE"), Ok((0, 0)));
        if others < 255 {
            pair.put(format!("/t{others}").as_bytes(), &[others as u8; 3]);
        }
    }
    pair.check();
}

/// Every part of a full set, each cut into one piece and joined again.
#[test]
fn a_full_set_in_pieces() {
    let mut buffer = buffer(10_000);
    let mut pair = Pair::start(&mut buffer);
    let name = |i: usize| format!("/T{i}").into_bytes();
    for i in 0..256 {
        pair.put(&name(i), &vec![i as u8; i % 7]);
    }
    for i in 0..256 {
        assert_eq!(pair.cut(&name(i), 2), Err(15));
        assert_eq!(pair.cut(&name(i), 1), Ok((i % 7, 0)));
    }
    pair.check();
    for i in (0..256).rev() {
        assert_eq!(pair.join(&name(i)), Ok((0, 0)));
    }
    pair.check();
}
