//! Part names are looked at eight bytes at a time. Each byte, and each unit of
//! several, at each place of names of many lengths.

use crate::support::{show, Tally};
use crate::{alike, taken_by_archive, taken_by_reference};
use reference::names as ref_names;
use zombirels::names;

/// Lengths of up to four eights, and those about the longest name.
fn lengths() -> impl Iterator<Item = usize> {
    (2..=34).chain(247..=258)
}

/// A name of so many bytes. Its slashes come at each place of eight bytes.
fn name(length: usize) -> Vec<u8> {
    (0..length)
        .map(|i| match i % 7 {
            0 => b'/',
            1 => b"azAZ09-._&;@"[i % 12],
            _ => b'a' + (i % 26) as u8,
        })
        .collect()
}

/// Compares a name by itself and before a suffix. Answers whether it is one.
fn compare(name: &[u8]) -> bool {
    let right = ref_names::is_part_name(name);
    for suffix in [&b""[..], b"/[12].piece", b"/[0].last.Piece", b"/[01].piece"] {
        let item = [name, suffix].concat();
        let (taken, right) = (taken_by_archive(&item), taken_by_reference(&item));
        assert_eq!(taken, right, "item name: {}", show(&item));
    }
    alike("part name", names::is_part_name(name), right, || show(name))
}

#[test]
fn every_byte_at_every_place() {
    let mut tally = Tally::default();
    for length in lengths() {
        for place in 0..length {
            let mut name = name(length);
            for byte in 0..=255 {
                name[place] = byte;
                tally.add(compare(&name));
            }
        }
    }
    tally.require("every byte at every place", 800_000);
}

#[test]
fn every_unit_at_every_place() {
    let units: [&[u8]; 16] = [
        b"%20",
        b"%41",
        b"%2f",
        b"%",
        b"%2",
        b"\xC3\xA9",
        b"\xE2\x82\xAC",
        b"\xF0\x9F\x94\xAC",
        b"\xC3/",
        b"\xE2\x82",
        b"//",
        b"./",
        b"/.",
        b"../",
        b"[0]",
        b"~!$=",
    ];
    let mut tally = Tally::default();
    for length in lengths() {
        for unit in units {
            for place in 0..=length.saturating_sub(unit.len()) {
                let mut name = name(length.max(unit.len()));
                name[place..place + unit.len()].copy_from_slice(unit);
                tally.add(compare(&name));
            }
        }
    }
    tally.require("every unit at every place", 50_000);
}
