//! Damaged and foreign buffers: every call ends, and a refusal leaves every
//! byte of the package and of the output as it was.
//!
//! ZOMBIRELS_CALLS sets how many calls each test makes. Buffers, names and
//! outputs have exactly their length, so that a memory checker sees every
//! access beside them: `scripts/memcheck` at the top runs them so.

mod cuts;
mod entries;
mod none;
mod origins;
mod random;
mod readings;
#[path = "../support/mod.rs"]
mod support;

use entries::SeenEntries;
use random::{cut_or_join, drop_field, name, put_field, random_call};
use readings::{RELATIONSHIPS_NUMBERS, TYPES_NUMBERS};
use std::collections::BTreeMap;
use std::sync::atomic::{AtomicUsize, Ordering};
use std::sync::Once;
use std::time::Duration;
use support::calls::{Answer, Call};
use support::{show, Random};
use zombirels::package::{Package, OVERHEAD};
use zombirels::script::Code;
use zombirels::Refusal;

/// How many calls a test makes if ZOMBIRELS_CALLS is not set.
const CALLS: usize = 150_000;

/// The bytes that every package begins with.
const MARK: usize = 8;
/// The header, and a row's place in the table behind it.
const HEADER: usize = 64;
const SLOT: usize = 24;

/// The numbers that a type origin answers, whatever the buffer holds.
const ORIGIN_NUMBERS: [u64; 5] = [0, 1, 3, 4, 13];

/// Counts the calls that ended. If none does for a minute, one hangs.
static ENDED: AtomicUsize = AtomicUsize::new(0);

fn watch() {
    static WATCHING: Once = Once::new();
    WATCHING.call_once(|| {
        std::thread::spawn(|| loop {
            let before = ENDED.load(Ordering::Relaxed);
            std::thread::sleep(Duration::from_secs(60));
            if ENDED.load(Ordering::Relaxed) == before {
                eprintln!("a call hangs: no call ended for a minute");
                std::process::exit(1);
            }
        });
    });
}

/// What a test saw: how often each number came.
#[derive(Default)]
struct Seen {
    calls: usize,
    numbers: BTreeMap<u64, usize>,
    /// How often each number came for cuts, joins, type origins and readings.
    later: BTreeMap<(Code, u64), usize>,
    /// How often a type came from each kind of entry.
    origins: BTreeMap<usize, usize>,
    /// What came of entries that were asked for by their positions.
    entries: SeenEntries,
}

impl Seen {
    fn add(&mut self, call: &Call, answer: Answer) {
        let number = answer.err().map_or(0, |(number, _)| number);
        self.calls += 1;
        *self.numbers.entry(number).or_insert(0) += 1;
        if call.code >= Code::CutPart {
            *self.later.entry((call.code, number)).or_insert(0) += 1;
        }
        if let (Code::TypeOrigin, Ok([kind, ..])) = (call.code, answer) {
            *self.origins.entry(kind).or_insert(0) += 1;
        }
    }

    /// Checks that the call met each of these numbers.
    fn check(&self, code: Code, numbers: &[u64]) {
        for &number in numbers {
            let met = self.later.contains_key(&(code, number));
            assert!(met, "{code:?} {number} never came");
        }
    }

    fn print(&self, test: &str) {
        let (calls, numbers) = (self.calls, &self.numbers);
        println!("{test}: {calls} calls, by number: {numbers:?}");
        println!(
            "{test}: cuts, joins, type origins, readings: {:?}",
            self.later
        );
        println!("{test}: type origins by kind: {:?}", self.origins);
        self.entries.print(test);
    }
}

/// Makes a call on the buffer. If it is refused, checks that nothing changed.
/// A view has no number and gives 0.
fn make(random: &mut Random, seen: &mut Seen, buffer: &mut [u8], call: &Call) {
    let before = buffer.to_vec();
    let mut out = random.bytes(call.lent).into_boxed_slice();
    let out_before = out.clone();
    let answer = call.by_archive(Package::open_mut(buffer), &mut out);
    ENDED.fetch_add(1, Ordering::Relaxed);
    let number = answer.err().map_or(0, |(number, _)| number);
    if number != 0 {
        assert!(*buffer == before, "refusal {number} changed the package");
        assert!(out == out_before, "refusal {number} changed the output");
    }
    match call.code {
        Code::ViewItem => assert!(answer.is_ok_and(|[length, ..]| length <= before.len())),
        Code::TypeOrigin => assert!(ORIGIN_NUMBERS.contains(&number), "{number}"),
        Code::ReadTypes => assert!(TYPES_NUMBERS.contains(&number), "{number}"),
        Code::ReadRelationships => assert!(RELATIONSHIPS_NUMBERS.contains(&number), "{number}"),
        _ => {}
    }
    // what an accepted call didn't write is kept
    let written = call.written(answer);
    assert!(out[written..] == out_before[written..], "{}", show(&out));
    let kept = call.changes() || *buffer == before;
    assert!(kept, "{:?} changed the package", call.code);
    seen.add(call, answer);
}

/// A package as calls make it, with gaps from dropped entries, in a buffer of
/// just the right length or a longer one.
fn real_package(random: &mut Random) -> Box<[u8]> {
    let capacity = random.below(4000);
    let length = capacity + OVERHEAD + random.pick(&[0, 0, 1, 500]);
    let mut buffer = vec![0; length].into_boxed_slice();
    let package = Package::start(&mut buffer, capacity as u64).expect("room");
    for _ in 0..random.below(60) {
        let (name, size) = (name(random), random.below(200));
        let call = match random.below(8) {
            0..=1 => Call::new(Code::DropItem, &[&name]),
            2..=3 => put_field(random),
            4 if random.once_in(2) => drop_field(random),
            5 if random.once_in(2) => cut_or_join(random),
            _ => Call::new(Code::PutItem, &[&name, &random.bytes(size)]),
        };
        call.by_archive(package, &mut []).ok();
    }
    buffer
}

/// How many rows a real package has: the header's second number.
fn rows(buffer: &[u8]) -> usize {
    let bytes = buffer[MARK + 4..MARK + 8].try_into().expect("four bytes");
    u32::from_le_bytes(bytes) as usize
}

/// A place in the header, in the table of rows, or anywhere.
fn place(random: &mut Random, rows: usize, length: usize) -> usize {
    match random.below(4) {
        0 => MARK + random.below(HEADER - MARK),
        1 | 2 => HEADER + random.below(SLOT * (rows + 2)),
        _ => random.below(length),
    }
}

/// Calls on each damaged buffer, one after the other.
fn run(test: &str, damage: impl Fn(&mut Random) -> Box<[u8]>) -> Seen {
    watch();
    let mut random = Random::new(test);
    let mut seen = Seen::default();
    let calls = support::count("ZOMBIRELS_CALLS", CALLS);
    while seen.calls < calls {
        let mut buffer = damage(&mut random);
        for _ in 0..8 {
            let call = random_call(&mut random);
            make(&mut random, &mut seen, &mut buffer, &call);
        }
        entries::ask_some(&mut random, &mut seen.entries, &buffer, 4);
        // a start takes any bytes, and what it makes works
        if random.once_in(8) && buffer.len() >= OVERHEAD + 20 {
            let package = Package::start(&mut buffer, 20).expect("room");
            assert_eq!(package.find_item(b"/a"), Err(Refusal::NotHeld));
            assert_eq!(package.put_item(b"/a", b"0123456789"), Ok(()));
            assert_eq!(package.view_item(b"/A"), Some(&b"0123456789"[..]));
            assert_eq!(package.totals().map(|totals| totals.charge), Ok(12));
        }
    }
    seen.print(test);
    seen
}

#[test]
fn flipped_bits() {
    let seen = run("flipped bits", |random| {
        let mut buffer = real_package(random);
        let rows = rows(&buffer);
        for _ in 0..1 + random.below(3) {
            buffer[place(random, rows, OVERHEAD)] ^= 1 << random.below(8);
        }
        buffer
    });
    assert!(seen.numbers[&0] > 0 && seen.numbers[&1] > 0 && seen.numbers[&13] > 0);
}

#[test]
fn changed_bytes() {
    let seen = run("changed bytes", |random| {
        let mut buffer = real_package(random);
        let (rows, length) = (rows(&buffer), buffer.len());
        for _ in 0..1 + random.below(8) {
            let byte = random.byte();
            buffer[place(random, rows, length)] = random.pick(&[0, 1, 255, byte]);
        }
        buffer
    });
    assert!(seen.numbers[&0] > 0 && seen.numbers[&1] > 0 && seen.numbers[&13] > 0);
}

/// Numbers in the header and in the rows that a package could have, but that
/// don't agree.
#[test]
fn changed_numbers() {
    let seen = run("changed numbers", |random| {
        let mut buffer = real_package(random);
        let (rows, length) = (rows(&buffer), buffer.len() as u32);
        for _ in 0..1 + random.below(6) {
            let at = match random.below(3) {
                0 => MARK + 4 * random.below(4),
                _ => HEADER + 4 * random.below(6 * (rows + 2)),
            };
            let near = random.below(4 * OVERHEAD) as u32;
            let small = random.below(700) as u32;
            let edges = [0, 1, 640, 641, length - OVERHEAD as u32, length, u32::MAX];
            let edge = random.pick(&edges);
            let number = random.pick(&[near, small, small, edge]);
            buffer[at..at + 4].copy_from_slice(&number.to_le_bytes());
        }
        buffer
    });
    assert!(seen.numbers[&0] > 0 && seen.numbers[&1] > 0 && seen.numbers[&13] > 0);
}

/// The mark of a package and random bytes behind it; in most of them the
/// header's numbers are small, so that many are taken for a package.
#[test]
fn random_bytes_behind_a_header() {
    let seen = run("random bytes behind a header", |random| {
        let mut start = vec![0; OVERHEAD];
        Package::start(&mut start, 0).expect("room");
        let length = OVERHEAD + random.below(4000);
        let mut buffer = random.bytes(length);
        buffer[..MARK].copy_from_slice(&start[..MARK]);
        if !random.once_in(8) {
            let room = (length - OVERHEAD) as u32;
            let end = random.below(room as usize + 1) as u32;
            let used = random.below(end as usize + 1) as u32;
            for (i, number) in [room, random.below(641) as u32, used, end]
                .into_iter()
                .enumerate()
            {
                buffer[MARK + 4 * i..][..4].copy_from_slice(&number.to_le_bytes());
            }
        }
        if random.once_in(2) {
            // small numbers in the rows as well, so that their fields lie in the buffer
            for slot in buffer[HEADER..HEADER + 640 * SLOT].chunks_exact_mut(4) {
                slot[2..].fill(0);
                slot[1] &= 3;
            }
        }
        buffer.into_boxed_slice()
    });
    assert!(seen.numbers[&0] > 0 && seen.numbers[&1] > 0 && seen.numbers[&13] > 0);
}

/// A real package cut off: below 32,768 bytes it is none.
#[test]
fn truncations() {
    let seen = run("truncations", |random| {
        let buffer = real_package(random);
        let length = match random.below(3) {
            0 => random.below(buffer.len()),
            1 => OVERHEAD + random.below(buffer.len() - OVERHEAD + 1),
            _ => random.below(HEADER + 10),
        };
        buffer[..length].into()
    });
    assert!(seen.numbers[&1] > 0);
}
