//! Finds among 200 items beside a plain hash map of folded names.
//!
//! The map is the standard library's, with its own hasher. A call judges the
//! name as the reference's find does, folds it into bytes of its own and looks
//! these up. The archive judges, folds and searches by halving, so what both
//! take for the judging alone is told beside it. For names of 50 bytes at most
//! 2.0 times the map's time is wanted.
//!
//! The names are asked for in one order over and over, which the processor
//! seems to learn, and in a new order for each pass.

mod support;

use reference::names::{fold, take_apart};
use std::collections::HashMap;
use support::package::buffer;
use support::Random;
use zombirels::names;
use zombirels::package::{Package, CAPACITY_MAX};

const ITEMS: usize = 200;
/// How often a round goes through all names.
const PASSES: usize = 250;
/// How many bytes the names have.
const LENGTHS: [usize; 3] = [10, 50, 250];

/// How names are held, and how they are asked for.
struct Spelling {
    what: &'static str,
    held: fn(&[u8]) -> Vec<u8>,
    asked: fn(&[u8]) -> Vec<u8>,
}

const SPELLINGS: [Spelling; 4] = [
    Spelling {
        what: "small",
        held: small,
        asked: small,
    },
    Spelling {
        what: "small, by capitals",
        held: small,
        asked: capitals,
    },
    Spelling {
        what: "mixed",
        held: mixed,
        asked: mixed,
    },
    Spelling {
        what: "mixed, by small",
        held: mixed,
        asked: small,
    },
];

fn small(name: &[u8]) -> Vec<u8> {
    name.to_ascii_lowercase()
}

fn capitals(name: &[u8]) -> Vec<u8> {
    name.to_ascii_uppercase()
}

/// Every third letter a capital, the others small.
fn mixed(name: &[u8]) -> Vec<u8> {
    let mut name = small(name);
    let letters = name.iter_mut().filter(|byte| byte.is_ascii_alphabetic());
    for letter in letters.step_by(3) {
        letter.make_ascii_uppercase();
    }
    name
}

/// The folder of the longest names, 200 bytes.
const FOLDER: &str = "/hospital-of-the-northern-district/department-of-pathology\
    /archive-of-scanned-slides/study-of-2026-second-reading/patient-0000417\
    /block-b-left-ovary/section-03-stained-haematoxylin-eosin/40x-scanner-2";

/// The name of a tile, of so many bytes; neighbours in number are no
/// neighbours in order.
fn tile(i: usize, length: usize) -> Vec<u8> {
    let (row, column, level) = (i * 7 % 40, i * 13 % 64, i % 5);
    let long = format!("/slides/2026/ovary-17/tiles/L{level}/r{row:03}c{column:03}-{i:05}.tiff");
    let name = match length {
        10 => format!("/t{:04}.tif", i * 77 % ITEMS),
        50 => long,
        _ => format!("{FOLDER}{long}"),
    };
    assert_eq!(name.len(), length, "{name}");
    name.into_bytes()
}

/// The length of each item by its folded name.
type Lengths = HashMap<Vec<u8>, usize>;

/// The length of a whole item, and none for a name that is refused or not held.
fn find_in_map(lengths: &Lengths, name: &[u8]) -> Option<usize> {
    let item = take_apart(name).ok()?;
    if item.piece.is_some() {
        return None; // no pieces are held
    }
    lengths.get(&fold(item.prefix)).copied()
}

/// The items on both sides, each of another length.
fn hold<'a>(buffer: &'a mut [u8], names: &[Vec<u8>]) -> (&'a mut Package, Lengths) {
    let package = Package::start(buffer, CAPACITY_MAX).expect("room");
    let mut lengths = HashMap::new();
    for (i, name) in names.iter().enumerate() {
        package.put_item(name, vec![0; i]).expect("room");
        lengths.insert(fold(name), i);
    }
    assert_eq!(lengths.len(), ITEMS, "all names differ");
    (package, lengths)
}

/// Both sides answer alike for every name, and for one that is not held.
fn check(package: &Package, lengths: &Lengths, names: &[Vec<u8>]) {
    for (i, name) in names.iter().enumerate() {
        let other = [name, &b"~"[..]].concat();
        for (name, right) in [(name, Some(i)), (&other, None)] {
            assert_eq!(package.find_item(name).ok(), right);
            assert_eq!(find_in_map(lengths, name), right);
        }
    }
}

/// The names by their numbers, in the order in which they are asked for.
fn order(new_each_pass: bool) -> Vec<usize> {
    let mut random = Random(1);
    match new_each_pass {
        true => (0..PASSES).flat_map(|_| random.shuffled(ITEMS)).collect(),
        false => (0..ITEMS).collect(),
    }
}

/// The seconds of a find and of the judging alone, each by the archive and
/// beside it, timed in turn.
fn measure(length: usize, spelling: &Spelling, order: &[usize]) -> [f64; 4] {
    let tiles = (0..ITEMS).map(|i| tile(i, length));
    let (held, asked): (Vec<Vec<u8>>, Vec<Vec<u8>>) = tiles
        .map(|tile| ((spelling.held)(&tile), (spelling.asked)(&tile)))
        .unzip();
    let mut buffer = buffer();
    let (package, lengths) = hold(&mut buffer, &held);
    check(package, &lengths, &asked);
    let name = |i: usize| &asked[order[i]][..];
    support::in_turn(
        PASSES * ITEMS / order.len(),
        order.len(),
        [
            &mut |i| package.find_item(name(i)).expect("held"),
            &mut |i| find_in_map(&lengths, name(i)).expect("held"),
            &mut |i| names::take_apart(name(i)).map_or(0, |item| item.prefix.len()),
            &mut |i| take_apart(name(i)).map_or(0, |item| item.prefix.len()),
        ],
    )
}

fn print_row(what: &str, [archive, map, judged, judged_beside]: [f64; 4]) {
    let nanoseconds = |seconds: f64| seconds * 1e9;
    println!(
        "{what:42} {:10.1} {:10.1} {:8.2} {:10.1} {:10.1}",
        nanoseconds(archive),
        nanoseconds(map),
        archive / map,
        nanoseconds(judged),
        nanoseconds(judged_beside),
    );
}

fn main() {
    println!("nanoseconds of a find among {ITEMS}; ratio: archive time / hash map time");
    println!("behind it the judging alone, by the archive and by the reference");
    let [find, map, ratio, judged, beside] =
        ["archive", "hash map", "ratio", "archive", "reference"];
    println!(
        "{:42} {find:>10} {map:>10} {ratio:>8} {judged:>10} {beside:>10}",
        ""
    );
    for (new_each_pass, ending) in [(false, ""), (true, ", new order")] {
        let order = order(new_each_pass);
        for length in LENGTHS {
            for spelling in &SPELLINGS {
                let what = format!("{length} bytes, {}{ending}", spelling.what);
                print_row(&what, measure(length, spelling, &order));
            }
        }
    }
}
