//! Cutting and joining. First a tile of 200,000 bytes among 200 items, beside
//! a plain copy of its bytes to the end of the same buffer; the package has
//! room behind its items. Then packages of a million bytes that are full once
//! the part is cut: how long a cut and a join take at most.
//!
//! The package is restored before each cut; the join is that of the pieces
//! which the cut left, or of such as were put. Only the calls are timed. In
//! the rows told to go on, cuts and joins follow each other on one package, so
//! that its gathering, when no room is left behind, is in their times.

mod support;

use std::hint::black_box;
use support::package::tile;
use support::{median, seconds, Random};
use zombirels::package::{Mode, Package, CAPACITY_MAX, OVERHEAD};

const TILE: usize = 200_000;
const ITEMS: usize = 200;

/// How many packages are timed together: the clock takes its time too.
const COPIES: usize = 8;
const ROUNDS: usize = 101;

/// How often the calls on a full package are timed.
const FULL_ROUNDS: usize = 15;

const CAPACITY: usize = CAPACITY_MAX as usize;

/// The name of piece `k` out of `count`.
fn piece(name: &str, k: usize, count: usize) -> Vec<u8> {
    let mark = if k + 1 == count { ".last" } else { "" };
    format!("{name}/[{k}]{mark}.piece").into_bytes()
}

/// The bytes that all names of the pieces have.
fn names(name: &str, count: usize) -> usize {
    (0..count).map(|k| piece(name, k, count).len()).sum()
}

/// A package of 200 items with the tile in their midst.
fn tiles(more: usize) -> Vec<u8> {
    let mut buffer = vec![0; CAPACITY + OVERHEAD + more];
    let package = Package::start(&mut buffer, CAPACITY_MAX).expect("room");
    for i in 0..ITEMS {
        let size = if i == ITEMS / 2 { TILE } else { 1000 };
        let bytes = vec![i as u8; size];
        package.put_item(tile(i), &bytes).expect("room");
    }
    buffer
}

/// Where an item's bytes lie.
fn place(buffer: &[u8], name: &[u8]) -> usize {
    let view = Package::open(buffer).view_item(name).expect("held");
    view.as_ptr() as usize - buffer.as_ptr() as usize
}

/// Copies the tile's bytes from a place to the end of the buffer.
fn copy(buffer: &mut [u8], from: usize) {
    let (head, end) = buffer.split_at_mut(buffer.len() - TILE);
    end.copy_from_slice(black_box(&head[from..from + TILE]));
    black_box(end);
}

/// The seconds of a call on each copy.
fn seconds_of(copies: &mut [Vec<u8>], call: impl FnMut(&mut Vec<u8>)) -> f64 {
    let start = seconds();
    copies.iter_mut().for_each(call);
    (seconds() - start) / COPIES as f64
}

fn restore(copies: &mut [Vec<u8>], buffer: &[u8]) {
    for copy in copies {
        copy.copy_from_slice(buffer);
    }
}

/// Times a cut of the tile into so many pieces, their join, and the copy. If
/// the calls go on, the packages are not restored before the cut.
fn beside_a_copy(what: &str, more: usize, pieces: u64, go_on: bool) {
    let (buffer, name) = (tiles(more), tile(ITEMS / 2));
    let from = place(&buffer, &name);
    let mut copies = vec![buffer.clone(); COPIES];
    let mut copied = copies.clone();
    let mut times = [const { Vec::new() }; 3];
    for round in 0..=ROUNDS {
        if !go_on {
            restore(&mut copies, &buffer);
        }
        let cut = seconds_of(&mut copies, |copy| {
            let cut = Package::open_mut(copy).cut_part(black_box(&name), pieces);
            cut.expect("room");
        });
        let join = seconds_of(&mut copies, |copy| {
            let join = Package::open_mut(copy).join_part(black_box(&name));
            join.expect("in pieces");
        });
        restore(&mut copied, &buffer);
        let bare = seconds_of(&mut copied, |buffer| copy(buffer, from));
        if round > 0 {
            for (times, seconds) in times.iter_mut().zip([cut, join, bare]) {
                times.push(seconds);
            }
        } // else it was the warm-up
    }
    // among calls that go on, few gather, and they count
    let typical = if go_on { mean } else { median };
    let [cut, join, bare] = times.map(|times| 1e6 * typical(times));
    let (of_cut, of_join) = (cut / bare, join / bare);
    println!("{what:38} {cut:9.1} {join:9.1} {bare:9.1} {of_cut:8.2} {of_join:8.2}");
}

fn mean(times: Vec<f64>) -> f64 {
    times.iter().sum::<f64>() / times.len() as f64
}

/// A call on a full package.
enum Call {
    Cut(&'static str, u64),
    Join(&'static str),
}

/// A package, and calls on it, one after the other.
struct Case {
    what: &'static str,
    buffer: Vec<u8>,
    calls: Vec<Call>,
}

impl Case {
    /// Prints the longest of the cuts and the longest of the joins.
    fn print(&self) {
        let mut package = self.buffer.clone();
        let mut times = vec![Vec::new(); self.calls.len()];
        for _ in 0..FULL_ROUNDS {
            package.copy_from_slice(&self.buffer);
            let package = Package::open_mut(&mut package);
            for (call, times) in self.calls.iter().zip(&mut times) {
                let start = seconds();
                match call {
                    Call::Cut(name, pieces) => {
                        let cut = package.cut_part(black_box(name.as_bytes()), *pieces);
                        cut.expect("room");
                    }
                    Call::Join(name) => {
                        let join = package.join_part(black_box(name.as_bytes()));
                        join.expect("in pieces");
                    }
                }
                times.push(seconds() - start);
            }
        }
        let (mut cut, mut join) = (0.0f64, 0.0f64);
        for (call, times) in self.calls.iter().zip(times) {
            let time = 1e3 * median(times);
            match call {
                Call::Cut(..) => cut = cut.max(time),
                Call::Join(_) => join = join.max(time),
            }
        }
        println!("{:38} {cut:9.3} {join:9.3}", self.what);
    }
}

/// A package that these entries fill to the last byte: names and lengths, of
/// which the first takes what is left.
fn full(entries: &[(Vec<u8>, usize)], order: &[usize], relationships: usize) -> Vec<u8> {
    let mut buffer = vec![0; CAPACITY + OVERHEAD];
    let package = Package::start(&mut buffer, CAPACITY_MAX).expect("room");
    for i in 0..relationships {
        let id = format!("r{i}");
        let put = package.put_relationship(b"/", id.as_bytes(), b"a:", Mode::External, b"b:");
        put.expect("room");
    }
    let charge = package.totals().expect("a package").charge;
    let taken = |(name, length): &(Vec<u8>, usize)| name.len() + length;
    let left = CAPACITY - charge - entries.iter().map(taken).sum::<usize>();
    for &i in order {
        let (name, length) = &entries[i];
        let length = if i == 0 { length + left } else { *length };
        package.put_item(name, vec![i as u8; length]).expect("room");
    }
    assert_eq!(package.totals().expect("a package").charge, CAPACITY);
    buffer
}

/// The pieces of these parts, in turn, each of so many bytes.
fn alternating(parts: &[&str], count: usize, size: usize) -> Vec<(Vec<u8>, usize)> {
    let pieces = (0..count).flat_map(|k| parts.iter().map(move |name| piece(name, k, count)));
    pieces.map(|name| (name, size)).collect()
}

/// One part of nearly a million bytes that is cut into 256 pieces, the room for
/// their names behind it or in a gap before it.
fn whole(what: &'static str, gap: bool) -> Case {
    let room = names("/t", 256) - 2;
    let entries = [(b"/t".to_vec(), 0), (b"/gap".to_vec(), room - 4)];
    let mut buffer = full(&entries, if gap { &[1, 0] } else { &[0, 1] }, 0);
    let package = Package::open_mut(&mut buffer);
    package.drop_item(b"/gap").expect("held");
    Case {
        what,
        buffer,
        calls: vec![Call::Cut("/t", 256), Call::Join("/t")],
    }
}

/// Parts in as many pieces as there can be, put in this order, are joined and
/// cut again.
fn in_pieces(what: &'static str, parts: &[&'static str], order: fn(usize) -> Vec<usize>) -> Case {
    let count = 256 / parts.len();
    let entries = alternating(parts, count, (CAPACITY - 10_000) / 256);
    let joins = parts.iter().map(|name| Call::Join(name));
    let cuts = parts.iter().map(|name| Call::Cut(name, count as u64));
    Case {
        what,
        buffer: full(&entries, &order(entries.len()), 0),
        calls: joins.chain(cuts).collect(),
    }
}

/// The pieces of one part alternate with other items, in reverse, behind as
/// many relationships as there can be.
fn among_others() -> Case {
    let mut entries = alternating(&["/t"], 128, 4000);
    for i in 0..128 {
        let other = format!("/other{i}").into_bytes();
        entries.insert(2 * i + 1, (other, 3000));
    }
    let order: Vec<usize> = (0..entries.len()).rev().collect();
    Case {
        what: "128 pieces among 128 items, 256 links",
        buffer: full(&entries, &order, 256),
        calls: vec![Call::Join("/t"), Call::Cut("/t", 128)],
    }
}

fn in_order(count: usize) -> Vec<usize> {
    (0..count).collect()
}

fn in_reverse(count: usize) -> Vec<usize> {
    (0..count).rev().collect()
}

fn at_random(count: usize) -> Vec<usize> {
    Random(1).shuffled(count)
}

fn main() {
    println!("a tile of {TILE} bytes among {ITEMS} items, microseconds; ratio: against the copy");
    let (empty, cut, join, bare) = ("", "cut", "join", "copy");
    println!("{empty:38} {cut:>9} {join:>9} {bare:>9} {cut:>8} {join:>8}");
    for (buffer, more) in [
        ("buffer just long enough", 0),
        ("buffer 4 MB longer", 4_000_000),
    ] {
        for pieces in [2, 16, 50] {
            beside_a_copy(&format!("{pieces} pieces, {buffer}"), more, pieces, false);
        }
        beside_a_copy(&format!("16, going on, {buffer}"), more, 16, true);
    }
    println!("a million bytes without one to spare: milliseconds of a call at most");
    println!("{empty:38} {cut:>9} {join:>9}");
    whole("one part, 256 pieces", false).print();
    whole("one part, 256 pieces, room before it", true).print();
    in_pieces("256 pieces in order", &["/t"], in_order).print();
    in_pieces("256 pieces in reverse", &["/t"], in_reverse).print();
    in_pieces("256 pieces at random", &["/t"], at_random).print();
    let four = &["/a", "/b", "/c", "/d"];
    in_pieces("4 parts alternate, in order", four, in_order).print();
    in_pieces("4 parts alternate, in reverse", four, in_reverse).print();
    in_pieces("4 parts alternate, at random", four, at_random).print();
    among_others().print();
}
