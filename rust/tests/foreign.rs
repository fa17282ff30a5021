//! Foreign buffers whose rows all lie in one place: every call ends, answers a
//! number of the papers other than 1, and changes nothing where it refuses.
//! How long the calls take is printed by the benchmark of that name.

#[path = "support/foreign.rs"]
mod foreign;
mod support;

use foreign::{Call, Header, Share, CALLS, HEADERS, KINDS};
use std::collections::BTreeMap;
use support::entries::{told, Ask};
use zombirels::package::Package;
use zombirels::Refusal;

/// The bytes of the heap: far more than a package uses.
const HEAP: usize = 16_000_000;
/// An output that takes what rows of a package's bytes give.
const OUTPUT: usize = 6_000_000;

/// The number of a call's answer. The package and the output are then what
/// they were before it.
fn number(buffer: &[u8], package: &mut [u8], call: Call, out: &mut [u8]) -> u8 {
    let answer = call(Package::open_mut(package), out);
    let number = answer.map_or_else(|refusal| refusal.number(), |()| 0);
    assert!(number <= 20 && number != 1, "{number}");
    if number == 0 {
        package.copy_from_slice(buffer);
        out.fill(7);
    }
    assert!(package == buffer, "refusal {number} changed the package");
    let kept = out.iter().all(|&byte| byte == 7);
    assert!(kept, "refusal {number} changed the output");
    number
}

fn every_call(share: Share) {
    let mut out = vec![7; OUTPUT];
    for kind in &KINDS {
        for header in HEADERS {
            let buffer = foreign::buffer(kind, header, share, HEAP);
            let mut package = buffer.clone();
            for (what, call) in CALLS {
                let none = number(&buffer, &mut package, call, &mut []);
                let long = number(&buffer, &mut package, call, &mut out);
                let rows = header.rows;
                println!("{rows} {}: {what} {none} {long}", kind.what);
            }
        }
    }
}

#[test]
fn rows_of_the_whole_heap() {
    every_call(Share::Heap);
}

#[test]
fn rows_of_the_bytes_in_use() {
    every_call(Share::Used);
}

/// Streams of rows that have more bytes than are in use are refused; where
/// they have just as many they are written.
#[test]
fn streams_by_the_bytes_in_use() {
    for kind in &KINDS[..2] {
        let used = HEADERS[0].used / HEADERS[0].rows * HEADERS[0].rows;
        for (used, expected) in [(used, None), (used - 1, Some(Refusal::NotHeld))] {
            let header = Header { used, ..HEADERS[0] };
            let buffer = foreign::buffer(kind, header, Share::Used, HEAP);
            let package = Package::open(&buffer);
            let mut out = vec![7; OUTPUT];
            let answer = match kind.what {
                "types" => package.write_types(&mut out),
                _ => package.write_relationships(b"/", &mut out),
            };
            assert_eq!(answer.err(), expected, "{}", kind.what);
        }
    }
}

/// How many fields the entries of each set have.
const WIDTHS: [u64; 4] = [2, 2, 2, 5];

/// Positions in the sets of a package, of as many rows as there are, and past
/// all of them.
const POSITIONS: [u64; 12] = [0, 1, 63, 64, 255, 256, 319, 320, 638, 639, 640, u64::MAX];

/// The number of an entry's answer. The output is then what it was before.
fn entry_number(buffer: &[u8], ask: Ask, out: &mut [u8]) -> u64 {
    let out = &mut out[..ask.lent];
    let answer = told(&ask.reply(buffer, out));
    let (number, written) = match answer {
        Ok([length, _]) => (0, length),
        Err((number, _)) => (number, 0),
    };
    assert!([0, 3, 13].contains(&number), "{ask:?}: {number}");
    assert!(written <= ask.lent, "{ask:?}: {written}");
    out[..written].fill(7);
    let kept = out.iter().all(|&byte| byte == 7);
    assert!(kept, "{ask:?}: {number} changed the output");
    number
}

/// Asks for the field at each position, with no output and with a short one,
/// and at one position with one that takes all of the heap.
fn every_entry(buffer: &[u8], out: &mut [u8], seen: &mut BTreeMap<(u64, u64), usize>) {
    let before = buffer.to_vec();
    for (set, width) in (0..).zip(WIDTHS) {
        for field in 0..width {
            let asks = POSITIONS.iter().flat_map(|&position| {
                [0, 4096].map(|lent| Ask {
                    set,
                    position,
                    field,
                    lent,
                })
            });
            let long = Ask {
                set,
                position: 200,
                field,
                lent: out.len(),
            };
            for ask in asks.chain([long]) {
                let number = entry_number(buffer, ask, out);
                *seen.entry((set, number)).or_insert(0) += 1;
            }
        }
    }
    assert!(*buffer == before, "an entry changed the package");
}

/// Entries of rows that all lie in one place: by each position and field.
#[test]
fn entries_by_position() {
    let heap = 2_000_000; // still more than a package uses
    let mut out = vec![7; heap];
    let mut seen = BTreeMap::new();
    for share in [Share::Heap, Share::Used] {
        for kind in &KINDS {
            for header in HEADERS {
                let buffer = foreign::buffer(kind, header, share, heap);
                every_entry(&buffer, &mut out, &mut seen);
            }
        }
    }
    let asked: usize = seen.values().sum();
    println!("{asked} entries, by set and number: {seen:?}");
    for set in 0..4 {
        for number in [0, 3, 13] {
            assert!(seen.contains_key(&(set, number)), "set {set}: {number}");
        }
    }
}

/// The bytes of an item's name in `row_of_no_bytes`.
const NAME: usize = 2;
/// The bytes of its content.
const CONTENT: usize = 10;

/// Gives a row the place of the next one, and no bytes.
fn empty_row(buffer: &mut [u8], row: usize) {
    let [slot, next] = [row, row + 1].map(|row| 64 + 24 * row);
    buffer.copy_within(next..next + 4, slot);
    buffer[slot + 4..slot + 20].fill(0);
}

/// No call makes a row of no bytes. Where rows are gathered one by one, its
/// slot is told where it lies now, and the gathering ends; the next one then
/// finds the rows in order, and goes through.
#[test]
fn row_of_no_bytes() {
    let mut buffer = vec![0; 32_768 + 250];
    let package = Package::start(&mut buffer, 250).expect("a package");
    for letter in b'a'..=b'q' {
        package.put_item([b'/', letter], [letter; CONTENT]).expect("room");
    }
    package.drop_item("/a").expect("held");
    empty_row(&mut buffer, 14);
    let used = 15 * (NAME + CONTENT);
    buffer[16..18].copy_from_slice(&[used as u8, 0]);

    let package = Package::open_mut(&mut buffer);
    for _ in 0..2 {
        assert_eq!(package.put_item("/z", [b'z'; 48]), Ok(()));
    }
    assert_eq!(package.find_item("/z"), Ok(48));
    let totals = package.totals().expect("a package");
    assert_eq!([totals.items, totals.parts, totals.charge], [17, 17, 230]);
}
