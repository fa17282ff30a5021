//! Entries by their positions: all names of 256 whole items beside the same
//! names by the call for parts, all parts by the wrapper's iterator and by that
//! call, and a pass over each full set beside the reference, which sorts a set
//! once for a pass.

mod support;

use reference::ledger::Ledger;
use support::package::{buffer, tile, tiles, Pair};
use zombirels::package::{
    Mode, Package, DEFAULTS_MAX, ITEMS_MAX, OVERRIDES_MAX, RELATIONSHIPS_MAX,
};

/// A set: how many entries it has, and how many fields each of them has.
#[derive(Clone, Copy)]
struct Set {
    what: &'static str,
    number: u64,
    count: usize,
    width: u64,
}

const SETS: [Set; 4] = [
    Set {
        what: "items",
        number: 0,
        count: ITEMS_MAX,
        width: 2,
    },
    Set {
        what: "Defaults",
        number: 1,
        count: DEFAULTS_MAX,
        width: 2,
    },
    Set {
        what: "Overrides",
        number: 2,
        count: OVERRIDES_MAX,
        width: 2,
    },
    Set {
        what: "relationships",
        number: 3,
        count: RELATIONSHIPS_MAX,
        width: 5,
    },
];

/// Prints a line from two times in seconds.
fn print_line(what: &str, first: f64, second: f64) {
    let (a, b, ratio) = (1e9 * first, 1e9 * second, first / second);
    println!("{what:26} {a:10.1} {b:10.1} {ratio:8.2}");
}

fn heading(what: &str, first: &str, second: &str) {
    println!("nanoseconds of a {what}; ratio: {first} / {second}");
    let (empty, ratio) = ("", "ratio");
    println!("{empty:26} {first:>10} {second:>10} {ratio:>8}");
}

/// A name of each item, by both calls, among few items and among many.
fn names() {
    heading("name", "entry at", "part at");
    let (mut few, mut many) = (buffer(), buffer());
    let (few, many) = (tiles(&mut few, 16), tiles(&mut many, ITEMS_MAX));
    let (few, many) = (&few.package, &many.package);
    let [mut a, mut b, mut c] = [[0; 273]; 3];
    for i in 0..ITEMS_MAX as u64 {
        let entry = many.entry_at(0, i, 0, &mut a).expect("an item");
        let length = many.part_at(i, &mut b).expect("a part");
        assert_eq!(a[..entry.length], b[..length]);
    }
    let times = support::in_turn(
        200,
        ITEMS_MAX,
        [
            &mut |i| {
                let entry = many.entry_at(0, i as u64, 0, &mut a);
                entry.expect("an item").length
            },
            &mut |i| many.part_at(i as u64, &mut b).expect("a part"),
            &mut |i| {
                let entry = few.entry_at(0, i as u64 % 16, 0, &mut c);
                entry.expect("an item").length
            },
        ],
    );
    print_line("256 items", times[0], times[1]);
    let growth = times[0] / times[2];
    println!("entry at, 256 items against 16: {growth:.2} times");
}

/// The names of all parts, by the wrapper's iterator and one by one.
fn walks() {
    heading("part", "parts", "part at");
    for count in [16, ITEMS_MAX] {
        let mut buffer = buffer();
        let pair = tiles(&mut buffer, count);
        let package = &pair.package;
        let mut walk = |_| {
            let parts = package.parts().expect("a package");
            parts.map(|part| part.name().len()).sum()
        };
        let mut ask = |_| {
            let name = |i| package.part_at_to_string(i).expect("a part");
            (0..count as u64).map(|i| name(i).len()).sum()
        };
        assert_eq!(walk(0), ask(0));
        let times: [f64; 2] = support::in_turn(200, 1, [&mut walk, &mut ask]);
        let [walk, ask] = times.map(|time| time / count as f64);
        print_line(&format!("{count} parts"), walk, ask);
    }
}

/// Full sets on both sides.
fn fill(pair: &mut Pair) {
    let (media_type, kind) = (
        b"image/vnd.example.tile+tiff",
        b"http://example.com/2026/tile",
    );
    for i in 0..ITEMS_MAX {
        pair.put(&tile(i), &vec![7; i]);
    }
    for i in 0..DEFAULTS_MAX {
        let extension = format!("ext{}-{i}", i * 7 % 20).into_bytes();
        pair.put_default(&extension, media_type);
        pair.put_override(&tile(i), media_type);
    }
    for i in 0..RELATIONSHIPS_MAX {
        let id = format!("r{}-{i}", i * 7 % 20).into_bytes();
        let target = format!("tiles/L3/r{i}c044.tiff").into_bytes();
        let mode = match i % 2 {
            0 => Mode::Internal,
            _ => Mode::External,
        };
        pair.put_relationship(&tile(i % 8), &id, kind, mode, &target);
    }
}

impl Set {
    /// Copies all fields, one after the other; the sum of their lengths.
    fn pass(self, mut copy: impl FnMut(u64, u64) -> usize) -> usize {
        let mut sum = 0;
        for position in 0..self.count as u64 {
            for field in 0..self.width {
                sum += copy(position, field);
            }
        }
        sum
    }

    fn by_archive(self, package: &Package, out: &mut [u8]) -> usize {
        self.pass(|position, field| {
            let entry = package.entry_at(self.number, position, field, out);
            entry.expect("an entry").length
        })
    }

    fn by_reference(self, ledger: &Ledger, out: &mut [u8]) -> usize {
        let entries = ledger.entries(self.number).expect("a set");
        self.pass(|position, field| {
            let bytes = entries.at(position, field).expect("an entry");
            out[..bytes.len()].copy_from_slice(bytes);
            bytes.len()
        })
    }
}

/// A pass over all fields of each set.
fn passes() {
    heading("field", "archive", "reference");
    let mut buffer = buffer();
    let mut pair = Pair::new(&mut buffer);
    fill(&mut pair);
    let (package, ledger) = (&pair.package, &pair.ledger);
    let [mut out, mut other] = [[0; 300]; 2];
    for set in SETS {
        let sums = (
            set.by_archive(package, &mut out),
            set.by_reference(ledger, &mut other),
        );
        assert_eq!(sums.0, sums.1);
        assert_eq!(out, other);
        let mut archive = |_| set.by_archive(package, &mut out);
        let mut reference = |_| set.by_reference(ledger, &mut other);
        let times = support::in_turn(200, 1, [&mut archive, &mut reference]);
        let fields = set.count * set.width as usize;
        let [archive, reference] = times.map(|time| time / fields as f64);
        let what = format!("{}, {fields} fields", set.what);
        print_line(&what, archive, reference);
    }
}

fn main() {
    names();
    walks();
    passes();
}
