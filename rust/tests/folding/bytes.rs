//! Every character that a name may have, beside every other one: letters in
//! both cases are one, the bytes next to them and those beyond ASCII are not.

use crate::set::{Set, SETS};
use crate::support::calls::Call;
use crate::support::show;
use crate::{buffer, drop, find, put, spellings, view, Pair};
use reference::names::{is_equivalent, is_part_name};
use zombirels::script::Code;

/// Characters beyond ASCII: é and É, ÿ and Ÿ, the Kelvin sign, and others
/// whose bytes are apart by the bit that parts capitals from small letters.
const CHARACTERS: [&str; 12] = [
    "\u{e9}",
    "\u{c9}",
    "\u{ff}",
    "\u{178}",
    "\u{212a}",
    "\u{17f}",
    "\u{131}",
    "\u{130}",
    "\u{1e00}",
    "\u{1e20}",
    "\u{10400}",
    "\u{10420}",
];

/// Triplets: of bytes next to the letters, and of those of é and É.
const TRIPLETS: [&str; 8] = ["%40", "%5B", "%60", "%7B", "%C3%89", "%C3%A9", "%DF", "%FF"];

/// All that may stand in a segment, in capitals where it can: the bytes, the
/// triplets, the characters.
fn units() -> Vec<Vec<u8>> {
    let bytes = (0..=127).filter(|byte: &u8| !byte.is_ascii_lowercase());
    let bytes = bytes.map(|byte| vec![byte]);
    let others = TRIPLETS.iter().chain(&CHARACTERS);
    let units = bytes.chain(others.map(|unit| unit.as_bytes().to_vec()));
    let in_name = |unit: &Vec<u8>| !unit.contains(&b'/') && is_part_name(&named(b"/a", unit, b"t"));
    units.filter(in_name).collect()
}

fn named(before: &[u8], unit: &[u8], behind: &[u8]) -> Vec<u8> {
    [before, unit, behind].concat()
}

#[test]
fn as_many_as_there_are() {
    let one = units().into_iter().filter(|unit| unit.len() == 1);
    let one: Vec<u8> = one.flatten().collect();
    let shown = String::from_utf8_lossy(&one).into_owned();
    assert_eq!(
        shown,
        "!$&'()*+,-.0123456789:;=@ABCDEFGHIJKLMNOPQRSTUVWXYZ_~"
    );
}

/// One name is held; of all that differ from it in one character those are
/// found that are equivalent, in every place of a block of eight bytes.
#[test]
fn one_held() {
    let units = units();
    for place in 1..=17 {
        let before = &b"/tileTILEtileTILE"[..place];
        let names = units.iter().map(|unit| named(before, unit, b"t"));
        let names: Vec<Vec<u8>> = names.flat_map(|name| spellings(&name)).collect();
        let mut buffer = buffer(100);
        let mut pair = Pair::start(&mut buffer);
        for held in names.iter().step_by(3) {
            pair.expect(&put(held), 0);
            for asked in &names {
                let number = if is_equivalent(held, asked) { 0 } else { 13 };
                pair.expect(&find(asked), number);
            }
            pair.expect(&drop(held), 0);
        }
    }
}

/// All are held that differ in that character, in small letters or in
/// capitals: each is found in every spelling, and they are listed in order.
#[test]
fn all_held() {
    for (before, behind) in [
        (&b"/"[..], &b"t"[..]),
        (b"/t", b""),
        (b"/Tile/", b"/t"),
        (b"/tiles-A", b"end-of-the-name"),
        (b"/tiles/L1/r0", b"Z"),
    ] {
        let names = units().into_iter().map(|unit| named(before, &unit, behind));
        let names: Vec<Vec<u8>> = names.filter(|name| is_part_name(name)).collect();
        for spelling in 0..4 {
            let mut buffer = buffer(10_000);
            let mut pair = Pair::start(&mut buffer);
            for (i, name) in names.iter().enumerate() {
                // the fourth time in turn
                let spelled = if spelling == 3 { i % 4 } else { spelling };
                pair.expect(&put(&spellings(name)[spelled]), 0);
            }
            pair.check_parts();
            for name in names.iter().flat_map(|name| spellings(name)) {
                pair.expect(&put(&name), 10);
                pair.expect(&find(&name), 0);
                pair.make(&view(&name)).expect("a view");
                let seen = pair.package.view_item(&name).expect("held");
                assert!(is_equivalent(seen, &name), "{}", show(&name));
            }
        }
    }
}

/// The same in each set, as many as it takes; the streams are in order.
#[test]
fn in_each_set() {
    for set in SETS {
        let names = units().into_iter().map(|unit| named(b"/t", &unit, b"t"));
        let fits = |name: &Vec<u8>| set != Set::Defaults || !name.contains(&b'.');
        let names: Vec<Vec<u8>> = names.filter(fits).collect();
        for names in [&names[..40], &names[names.len() - 40..]] {
            let mut buffer = buffer(20_000);
            let mut pair = Pair::start(&mut buffer);
            for (i, name) in names.iter().enumerate() {
                if let Some(part) = set.part(name) {
                    pair.expect(&put(&part), 0);
                }
                pair.expect(&set.put(&spellings(name)[i % 4]), 0);
            }
            for name in names.iter().flat_map(|name| spellings(name)) {
                pair.expect(&set.put(&name), 10);
                for ask in set.asks(&name) {
                    pair.number(&ask);
                }
                pair.expect(&set.asks(&name)[0], 0);
            }
            let types = Call::new(Code::WriteTypes, &[]).with_output(20_000);
            pair.expect(&types, 0);
            for (i, name) in names.iter().enumerate() {
                pair.expect(&set.drop(&spellings(name)[(i + 1) % 4]), 0);
                pair.expect(&set.asks(name)[0], set.missing());
            }
        }
    }
}

/// É and é are two, in UTF-8 and in triplets; the letters of a triplet are one
/// in both cases.
#[test]
fn beyond_ascii() {
    let mut buffer = buffer(1000);
    let mut pair = Pair::start(&mut buffer);
    for (name, number) in [
        (&b"/\xC3\x89"[..], 0),
        (b"/\xC3\xA9", 0),
        (b"/\xC3\x89", 10),
        (b"/\xC3\xA9", 10),
        (b"/%C3%89", 0),
        (b"/%C3%A9", 0),
        (b"/%c3%a9", 10),
        (b"/%C3%a9", 10),
        (b"/%c3%89", 10),
        (b"/\xC3\x89Z", 0),
        (b"/\xC3\x89z", 10),
        (b"/\xC3\xA9z", 0),
        (b"/K", 0),
        (b"/\xE2\x84\xAA", 0),
        (b"/k", 10),
    ] {
        pair.expect(&put(name), number);
    }
    let view = |name: &[u8]| pair.package.view_item(name);
    assert_eq!(view(b"/%c3%a9"), Some(&b"/%C3%A9"[..]));
    assert_eq!(view(b"/\xC3\xA9Z"), Some(&b"/\xC3\xA9z"[..]));
    pair.check_parts();
}
