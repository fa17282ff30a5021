//! A package on both sides, and changes of it timed in batches.

use super::{median, print_line, seconds, Random, ROUNDS};
use reference::ledger::Ledger;
use std::hint::black_box;
use zombirels::package::{Mode, Package, CAPACITY_MAX, OVERHEAD};

/// How many entries a batch puts, and drops.
pub const BATCH: usize = 40;
const BATCHES: usize = 50;

/// What a batch does with each of its entries, first the one, then the other.
#[derive(Clone, Copy)]
pub enum Change {
    Put,
    Drop,
}

/// Both sides with the same items.
pub struct Pair<'a> {
    pub package: &'a mut Package,
    pub ledger: Ledger,
}

impl<'a> Pair<'a> {
    pub fn new(buffer: &'a mut [u8]) -> Pair<'a> {
        let mut ledger = Ledger::default();
        let length = buffer.len() as u64;
        ledger.start(length, CAPACITY_MAX).expect("room");
        let package = Package::start(buffer, CAPACITY_MAX).expect("room");
        Pair { package, ledger }
    }

    pub fn put(&mut self, name: &[u8], bytes: &[u8]) {
        self.package.put_item(name, bytes).expect("room");
        self.ledger.put_item(name, bytes).expect("room");
    }

    pub fn put_default(&mut self, extension: &[u8], media_type: &[u8]) {
        let put = self.package.put_default(extension, media_type);
        put.expect("room");
        let put = self.ledger.put_default(extension, media_type);
        put.expect("room");
    }

    pub fn put_override(&mut self, name: &[u8], media_type: &[u8]) {
        let put = self.package.put_override(name, media_type);
        put.expect("room");
        let put = self.ledger.put_override(name, media_type);
        put.expect("room");
    }

    pub fn put_relationship(
        &mut self,
        source: &[u8],
        id: &[u8],
        kind: &[u8],
        mode: Mode,
        target: &[u8],
    ) {
        let put = self
            .package
            .put_relationship(source, id, kind, mode, target);
        put.expect("room");
        let mode = mode.number();
        let put = self.ledger.put_relationship(source, id, kind, mode, target);
        put.expect("room");
    }
}

pub fn buffer() -> Vec<u8> {
    vec![0; CAPACITY_MAX as usize + OVERHEAD]
}

/// The name of a tile; neighbours in number are no neighbours in order.
pub fn tile(i: usize) -> Vec<u8> {
    let (row, column, level) = (i * 7 % 40, i * 13 % 64, i % 5);
    format!("/slides/2026/ovary-17/tiles/L{level}/r{row:03}c{column:03}-{i}.tiff").into_bytes()
}

/// The same name as a count sheet may spell it.
pub fn asked(i: usize) -> Vec<u8> {
    let mut name = tile(i);
    if i % 2 == 0 {
        name.make_ascii_uppercase();
    }
    name
}

/// So many tiles, each of another length.
pub fn tiles(buffer: &mut [u8], count: usize) -> Pair<'_> {
    let mut pair = Pair::new(buffer);
    for i in 0..count {
        pair.put(&tile(i), &vec![0; i]);
    }
    pair
}

/// The seconds of a batch's puts and of its drops, on one side.
fn batch(halves: [&[&[u8]]; 2], mut change: impl FnMut(&[u8], Change)) -> [f64; 2] {
    let mut times = [0.0; 2];
    for (half, what) in [Change::Put, Change::Drop].into_iter().enumerate() {
        let start = seconds();
        for key in halves[half] {
            change(black_box(key), what);
        }
        times[half] = seconds() - start;
    }
    times
}

/// Times puts and drops on both sides: in each batch of the entries whose keys
/// are not held, then of as many of all entries at random.
pub fn changes(
    what: [&str; 2],
    keys: &[Vec<u8>],
    mut archive: impl FnMut(&[u8], Change),
    mut reference: impl FnMut(&[u8], Change),
) {
    let mut times: [[Vec<f64>; 2]; 2] = Default::default();
    let mut random = Random(1);
    let mut order: Vec<&[u8]> = keys.iter().map(Vec::as_slice).collect();
    for number in 0..=ROUNDS {
        let mut sums = [[0.0; 2]; 2];
        for _ in 0..BATCHES {
            let puts = order[..BATCH].to_vec();
            for i in 0..BATCH {
                order.swap(i, i + random.below(keys.len() - i));
            }
            let halves = [&puts[..], &order[..BATCH]];
            let archive = batch(halves, &mut archive);
            let reference = batch(halves, &mut reference);
            for half in 0..2 {
                sums[half][0] += archive[half];
                sums[half][1] += reference[half];
            }
        }
        if number > 0 {
            for half in 0..2 {
                times[half][0].push(sums[half][0]);
                times[half][1].push(sums[half][1]);
            }
        } // else it was the warm-up
    }
    for (what, sides) in what.iter().zip(times) {
        let [archive, reference] = sides.map(|times| median(times) / (BATCH * BATCHES) as f64);
        print_line(what, archive, reference);
    }
}
