//! Entries asked for by their positions on damaged packages.

use crate::cuts::damage;
use crate::random::{cut_or_join, name, put_field};
use crate::support::calls::Call;
use crate::support::entries::{told, Ask};
use crate::support::{self, Random};
use crate::{rows, watch, CALLS, ENDED, HEADER, MARK, SLOT};
use std::collections::BTreeMap;
use std::sync::atomic::Ordering;
use zombirels::package::{Package, OVERHEAD};
use zombirels::script::Code;

/// The numbers that are answered, whatever the buffer holds.
const NUMBERS: [u64; 5] = [0, 1, 3, 8, 13];

/// How many fields the entries of a set have; none if it is no set.
fn width(set: u64) -> u64 {
    match set {
        0..=2 => 2,
        3 => 5,
        _ => 0,
    }
}

/// How many rows a table takes.
const ROWS: u32 = 640;

/// The tags of items, of types and of relationships, and others near them.
const TAGS: [u32; 12] = [
    0,
    1,
    2,
    3,
    20_001,
    32_767,
    32_768,
    32_769,
    32_770,
    32_771,
    32_772,
    u32::MAX,
];

/// How often each set met each number; 4 stands for all that are no set.
#[derive(Default)]
pub struct SeenEntries {
    pub asked: usize,
    numbers: BTreeMap<(u64, u64), usize>,
}

impl SeenEntries {
    pub fn print(&self, test: &str) {
        let (asked, numbers) = (self.asked, &self.numbers);
        if asked > 0 {
            println!("{test}: {asked} entries, by set and number: {numbers:?}");
        }
    }

    /// Checks that each set met each of these numbers.
    fn check(&self, numbers: &[u64]) {
        for set in 0..4 {
            for &number in numbers {
                let met = self.numbers.contains_key(&(set, number));
                assert!(met, "set {set} never met {number}");
            }
        }
    }
}

/// Asks about a buffer, and checks that this is kept, and the output but for
/// what an accepted call writes. Answers the number.
fn check(random: &mut Random, seen: &mut SeenEntries, buffer: &[u8], ask: Ask) -> u64 {
    let before = buffer.to_vec();
    let mut out = random.bytes(ask.lent).into_boxed_slice();
    let out_before = out.clone();
    let answer = told(&ask.reply(buffer, &mut out));
    ENDED.fetch_add(1, Ordering::Relaxed);
    assert!(*buffer == before, "{ask:?} changed the package");
    let (number, written) = match answer {
        Ok([length, _]) => (0, length),
        Err((number, needed)) => {
            assert!(number != 3 || needed > ask.lent, "{ask:?}: {needed}");
            (number, 0)
        }
    };
    assert!(NUMBERS.contains(&number), "{ask:?}: {number}");
    assert!(written <= ask.lent, "{ask:?}: {written}");
    let kept = out[written..] == out_before[written..];
    assert!(kept, "{ask:?}: {number} changed the output");
    let none = ask.field >= width(ask.set);
    assert!(number == 1 || (number == 8) == none, "{ask:?}: {number}");
    seen.asked += 1;
    *seen.numbers.entry((ask.set.min(4), number)).or_insert(0) += 1;
    number
}

/// Asks for some entries of any sets. The buffer is a package for all of them
/// or for none.
pub fn ask_some(random: &mut Random, seen: &mut SeenEntries, buffer: &[u8], times: usize) {
    let mut ones = 0;
    for _ in 0..times {
        let set = match random.below(24) {
            0 => random.pick(&[4, 5, 1 << 32, u64::MAX]),
            n => n as u64 % 4,
        };
        let ask = Ask {
            set,
            position: match random.below(10) {
                0 => random.pick(&[255, 256, 639, 640, 641, 1 << 32, u64::MAX]),
                1 | 2 => random.below(700) as u64,
                3 | 4 => random.below(16) as u64,
                _ => random.below(4) as u64,
            },
            field: match random.below(10) {
                0 => random.pick(&[2, 5, 9, 1 << 32, u64::MAX]),
                _ => random.below(width(set).max(1) as usize) as u64,
            },
            lent: random.pick(&[0, 1, 2, 7, 20, 273, 5000]),
        };
        ones += usize::from(check(random, seen, buffer, ask) == 1);
    }
    assert!(ones == 0 || ones == times, "{ones} times no package");
}

/// Entries in all sets, put in any order, with gaps from dropped ones.
fn package(random: &mut Random) -> Box<[u8]> {
    let capacity = 1000 + random.below(3000);
    let spare = random.pick(&[0, 0, 300]);
    let mut buffer = vec![0; capacity + OVERHEAD + spare].into_boxed_slice();
    let package = &mut Package::start(&mut buffer, capacity as u64).expect("room");
    for _ in 0..20 + random.below(60) {
        let (name, size) = (name(random), random.below(60));
        let call = match random.below(8) {
            0..=3 => put_field(random),
            4 => cut_or_join(random),
            5 if random.once_in(2) => Call::new(Code::DropItem, &[&name]),
            _ => Call::new(Code::PutItem, &[&name, &random.bytes(size)]),
        };
        call.by_archive(package, &mut []).ok();
    }
    buffer
}

fn read(buffer: &[u8], at: usize) -> u32 {
    u32::from_le_bytes(buffer[at..at + 4].try_into().expect("four bytes"))
}

fn write(buffer: &mut [u8], at: usize, number: u32) {
    buffer[at..at + 4].copy_from_slice(&number.to_le_bytes());
}

/// Swaps two rows, or gives a row another tag, so that they are out of order.
fn disorder(random: &mut Random, buffer: &mut [u8]) {
    let rows = rows(buffer).max(1);
    for _ in 0..1 + random.below(4) {
        let [one, other] = [(); 2].map(|()| HEADER + SLOT * random.below(rows));
        if random.once_in(2) {
            let row = buffer[one..one + SLOT].to_vec();
            buffer.copy_within(other..other + SLOT, one);
            buffer[other..other + SLOT].copy_from_slice(&row);
        } else {
            let (near, any) = (read(buffer, one + 20) ^ 1, random.pick(&TAGS));
            write(buffer, one + 20, random.pick(&[near, any]));
        }
    }
}

/// More rows than are filled, or than the table takes.
fn miscount(random: &mut Random, buffer: &mut [u8]) {
    let rows = rows(buffer) as u32;
    let more = rows + 1 + random.below(300) as u32;
    let counts = [0, rows / 2, more, ROWS - 1, ROWS, ROWS + 1, u32::MAX];
    write(buffer, MARK + 4, random.pick(&counts));
    if random.once_in(2) {
        // all other slots hold a row as well, of one kind
        let tag = random.pick(&TAGS);
        for row in rows.min(ROWS)..ROWS {
            let at = HEADER + SLOT * row as usize;
            for (i, number) in [0, 1, 1, 1, 1, tag].into_iter().enumerate() {
                write(buffer, at + 4 * i, number);
            }
        }
    }
}

/// Rows that lie beyond the buffer, or reach beyond it: of their fields it has
/// no byte, or not all.
fn misplace(random: &mut Random, buffer: &mut [u8]) {
    let rows = rows(buffer).max(1);
    let heap = (buffer.len() - OVERHEAD) as u32;
    for _ in 0..1 + random.below(6) {
        let row = HEADER + SLOT * random.below(rows);
        let places = [heap - 1, heap, heap + 1, u32::MAX - 1, u32::MAX];
        let lengths = [heap - 1, heap, heap + 1, 1 << 31, u32::MAX];
        match random.below(3) {
            0 => write(buffer, row, random.pick(&places)),
            n => {
                let field = 4 * (1 + random.below(4));
                write(buffer, row + field, random.pick(&lengths));
                if n == 1 {
                    write(buffer, row, random.pick(&places));
                }
            }
        }
    }
}

/// Asks about packages that are damaged so.
fn run(test: &str, damage: fn(&mut Random, &mut [u8])) -> SeenEntries {
    watch();
    let mut random = Random::new(test);
    let mut seen = SeenEntries::default();
    let calls = support::count("ZOMBIRELS_CALLS", CALLS);
    while seen.asked < calls {
        let mut buffer = package(&mut random);
        damage(&mut random, &mut buffer);
        ask_some(&mut random, &mut seen, &buffer, 24);
    }
    seen.print(test);
    seen
}

#[test]
fn entries_of_changed_numbers() {
    run("entries of changed numbers", damage).check(&NUMBERS);
}

#[test]
fn entries_out_of_order() {
    run("entries out of order", disorder).check(&[0, 3, 8, 13]);
}

#[test]
fn entries_miscounted() {
    run("entries miscounted", miscount).check(&NUMBERS);
}

#[test]
fn entries_beyond_the_buffer() {
    run("entries beyond the buffer", misplace).check(&[0, 3, 8, 13]);
}
