//! The calls on items and parts: the archive beside the reference, whose ledger is
//! an ordered map keyed by the folded name; its folding is part of the call.
//!
//! Puts and drops change the package, so they are timed in batches: 40 tiles
//! are put into 180, which makes 200 on average, then 40 of all tiles are
//! dropped at random. Both sides do the same, and each half is timed by
//! itself. The bytes of dropped items stay as gaps until a put finds no room
//! behind the others and gathers them: a round has 50 batches, so its share of
//! that is in the put's time. A buffer that is longer than it must be needs it
//! less often.

mod support;

use std::hint::black_box;
use support::package::{asked, buffer, changes, tile, tiles, Change, Pair, BATCH};
use zombirels::package::{CAPACITY_MAX, OVERHEAD};

const TILE: usize = 4096;

fn find() {
    let mut buffer = buffer();
    let pair = tiles(&mut buffer, 200);
    let names: Vec<Vec<u8>> = (0..200).map(asked).collect();
    support::compare(
        "find among 200",
        500,
        200,
        |i| pair.package.find_item(&names[i]).expect("held"),
        |i| pair.ledger.find_item(&names[i]).expect("held"),
    );
}

/// How the time of a find grows, the four timed in turn.
fn find_growth() {
    let (mut few, mut many) = (buffer(), buffer());
    let (few, many) = (tiles(&mut few, 16), tiles(&mut many, 256));
    let names: Vec<Vec<u8>> = (0..256).map(asked).collect();
    let times = support::in_turn(
        400,
        256,
        [
            &mut |i| few.package.find_item(&names[i % 16]).expect("held"),
            &mut |i| many.package.find_item(&names[i]).expect("held"),
            &mut |i| few.ledger.find_item(&names[i % 16]).expect("held"),
            &mut |i| many.ledger.find_item(&names[i]).expect("held"),
        ],
    );
    print_growth("find", (times[0], times[2]), (times[1], times[3]));
}

/// How many times as long a call takes among many items as among few.
fn print_growth(call: &str, few: (f64, f64), many: (f64, f64)) {
    println!(
        "{call}, 256 items against 16: archive {:.2} times, reference {:.2} times",
        many.0 / few.0,
        many.1 / few.1
    );
}

fn puts_and_drops(what: [&str; 2], more: usize) {
    let mut buffer = vec![0; CAPACITY_MAX as usize + OVERHEAD + more];
    let mut pair = Pair::new(&mut buffer);
    let bytes = vec![7; TILE];
    let tiles: Vec<Vec<u8>> = (0..220).map(tile).collect();
    for tile in &tiles[BATCH..] {
        pair.put(tile, &bytes);
    }
    let Pair { package, ledger } = &mut pair;
    changes(
        what,
        &tiles,
        |name, change| match change {
            Change::Put => package.put_item(name, black_box(&bytes)).expect("room"),
            Change::Drop => package.drop_item(name).expect("held"),
        },
        |name, change| match change {
            Change::Put => ledger.put_item(name, black_box(&bytes)).expect("room"),
            Change::Drop => ledger.drop_item(name).expect("held"),
        },
    );
}

fn reads() {
    let mut buffer = buffer();
    let mut pair = Pair::new(&mut buffer);
    for i in 0..100 {
        pair.put(&tile(i), b"other");
    }
    for k in 0..64 {
        let mark = if k == 63 { "last.piece" } else { "piece" };
        let name = format!("/slides/2026/ovary-17/Tile/[{k}].{mark}");
        pair.put(name.as_bytes(), &[k; 1024]);
    }
    let name = b"/slides/2026/ovary-17/tile";
    let (mut out, mut other) = (vec![0; 1 << 16], vec![0; 1 << 16]);
    support::compare(
        "read 64 pieces of 1 KiB",
        2000,
        1,
        |_| pair.package.read_part(name, 0, &mut out).expect("a part"),
        |_| pair.ledger.read_part(name, 0, &mut other).expect("a part"),
    );
    assert_eq!(out, other);
    support::compare(
        "read 16 bytes of them",
        5000,
        64,
        |i| {
            let offset = 1024 * i as u64 + 100;
            let out = &mut out[..16];
            pair.package.read_part(name, offset, out).expect("a part")
        },
        |i| {
            let offset = 1024 * i as u64 + 100;
            let out = &mut other[..16];
            pair.ledger.read_part(name, offset, out).expect("a part")
        },
    );
}

fn walks() {
    let mut buffer = buffer();
    let mut pair = Pair::new(&mut buffer);
    for i in 0..160 {
        pair.put(&tile(i), b"tile");
    }
    for i in 0..20 {
        for suffix in ["/[0].piece", "/[1].last.piece"] {
            pair.put(format!("/pieces/p{i}{suffix}").as_bytes(), b"piece");
        }
    }
    support::compare(
        "totals of 200 items",
        20_000,
        1,
        |_| pair.package.totals().expect("a package").parts,
        |_| pair.ledger.totals().parts as usize,
    );
    let (mut out, mut other) = ([0; 255], [0; 255]);
    support::compare(
        "part at, of 180",
        100,
        180,
        |i| pair.package.part_at(i as u64, &mut out).expect("a part"),
        |i| pair.ledger.part_at(i as u64, &mut other).expect("a part"),
    );
}

/// What calls take among so many items, on both sides. The put is the last
/// item's, so that as many are held after it.
fn among(count: usize) -> [(f64, f64); 3] {
    let mut buffer = buffer();
    let mut pair = Pair::new(&mut buffer);
    for i in 0..count - 1 {
        pair.put(&tile(i), b"tile");
    }
    let Pair { package, ledger } = &mut pair;
    let (name, bytes) = (tile(count - 1), [7; 1024]);
    let changed = support::compare(
        &format!("put and drop among {count}"),
        2000,
        1,
        |_| {
            package.put_item(&name, bytes).expect("room");
            package.drop_item(&name).expect("held");
            0
        },
        |_| {
            ledger.put_item(&name, &bytes).expect("room");
            ledger.drop_item(&name).expect("held");
            0
        },
    );
    let (mut out, mut other) = ([0; 255], [0; 255]);
    let at = support::compare(
        &format!("part at, of {}", count - 1),
        100_000 / count,
        count - 1,
        |i| package.part_at(i as u64, &mut out).expect("a part"),
        |i| ledger.part_at(i as u64, &mut other).expect("a part"),
    );
    let totals = support::compare(
        &format!("totals of {} items", count - 1),
        20_000,
        1,
        |_| package.totals().expect("a package").parts,
        |_| ledger.totals().parts as usize,
    );
    [changed, at, totals]
}

/// How the time of a call grows with the number of items.
fn growth() {
    find_growth();
    let (few, many) = (among(16), among(256));
    let calls = ["put and drop", "part at", "totals"];
    for (call, (few, many)) in calls.iter().zip(few.iter().zip(&many)) {
        print_growth(call, *few, *many);
    }
}

fn view() {
    let mut buffer = buffer();
    let pair = tiles(&mut buffer, 200);
    let names: Vec<Vec<u8>> = (0..200).map(asked).collect();
    support::compare(
        "view among 200",
        500,
        200,
        |i| pair.package.view_item(&names[i]).map_or(0, <[u8]>::len),
        |i| pair.ledger.view_item(&names[i]).len(),
    );
}

fn main() {
    support::heading();
    find();
    view();
    puts_and_drops(["put 4 KiB among 200", "drop at random"], 0);
    let longer = ["put, 4 MB longer buffer", "drop, 4 MB longer buffer"];
    puts_and_drops(longer, 4_000_000);
    reads();
    walks();
    growth();
}
