//! Gathering: a put that finds no room behind the other rows first moves them
//! together. What it takes longer than the same put in a longer buffer stands
//! beside the bare moves of the same rows, one `copy_within` for each.
//!
//! Every package is full before rows are dropped. Tiny rows have 6 bytes, or 9
//! the relationships. They lie in the heap in the order of their slots, or at
//! random.

mod support;

use std::hint::black_box;
use support::{median, seconds, Random};
use zombirels::package::{Mode, Package, CAPACITY_MAX, ITEMS_MAX, OVERHEAD};

/// How many packages are timed together: the clock takes its time too.
const COPIES: usize = 16;
const ROUNDS: usize = 501;

/// How often a round drops a row and puts it again.
const TURNS: usize = 100;

/// Where the bytes of a row lie in the heap.
#[derive(Clone, Copy)]
struct Place {
    row: usize,
    at: usize,
    size: usize,
}

/// So many bytes from here to there.
struct Move {
    from: usize,
    to: usize,
    size: usize,
}

/// Row 0 and so on in the order of their slots: items, as many as a package
/// holds, then relationships.
fn put(package: &mut Package, row: usize) {
    let name = format!("/t{row:03}");
    let done = if row < ITEMS_MAX {
        package.put_item(name.as_bytes(), b"t")
    } else {
        package.put_relationship(b"/", &name.as_bytes()[1..], b"a:", Mode::External, b"b:")
    };
    done.expect("room");
}

fn drop(package: &mut Package, row: usize) {
    let name = format!("/t{row:03}");
    let done = if row < ITEMS_MAX {
        package.drop_item(name.as_bytes())
    } else {
        package.drop_relationship(b"/", &name.as_bytes()[1..])
    };
    done.expect("held");
}

/// Puts rows in this order into a package that they just fill.
fn full(order: &[usize], put: impl Fn(&mut Package, usize)) -> (Vec<u8>, Vec<Place>) {
    let mut capacity = CAPACITY_MAX as usize;
    loop {
        let mut buffer = vec![0; capacity + OVERHEAD];
        let package = Package::start(&mut buffer, capacity as u64).expect("room");
        let charge = |package: &Package| package.totals().expect("a package").charge;
        let mut places = Vec::new();
        for &row in order {
            let at = charge(package);
            put(package, row);
            let size = charge(package) - at;
            places.push(Place { row, at, size });
        }
        let used = charge(package);
        if used == capacity {
            return (buffer, places);
        }
        capacity = used; // the rows are known now
    }
}

/// Brings the rows together; answers how they are moved.
fn gather(places: &mut [Place]) -> Vec<Move> {
    let mut moves = Vec::new();
    let mut to = 0;
    for place in places {
        let Place { at: from, size, .. } = *place;
        if from != to {
            moves.push(Move { from, to, size });
        }
        place.at = to;
        to += size;
    }
    moves
}

fn make(moves: &[Move], heap: &mut [u8]) {
    for Move { from, to, size } in moves {
        heap.copy_within(*from..from + size, *to);
    }
}

/// The same package in a longer buffer.
fn longer(buffer: &[u8], more: usize) -> Vec<u8> {
    let mut longer = buffer.to_vec();
    longer.resize(buffer.len() + more, 0);
    longer
}

/// The seconds of a put, of a put where there is room, and of the bare moves,
/// for each round.
type Times = [Vec<f64>; 3];

/// Prints a line; answers the median of the puts.
fn print_line(what: &str, times: Times) -> f64 {
    let [put, roomy, moves] = times.map(|times| 1e6 * median(times));
    let ratio = (put - roomy) / moves;
    println!("{what:36} {put:9.2} {roomy:9.2} {moves:9.2} {ratio:8.2}");
    put
}

/// A package with gaps, and what was timed on it.
struct Case {
    what: String,
    buffer: Vec<u8>,
    moves: Vec<Move>,
    times: Times,
}

impl Case {
    /// Puts rows in this order, and drops those at these places.
    fn new(what: String, order: &[usize], is_gap: impl Fn(usize) -> bool) -> Case {
        let (mut buffer, places) = full(order, put);
        let package = Package::open_mut(&mut buffer);
        let mut held = Vec::new();
        for (number, place) in places.into_iter().enumerate() {
            if is_gap(number) {
                drop(package, place.row);
            } else {
                held.push(place);
            }
        }
        Case {
            what,
            buffer,
            moves: gather(&mut held),
            times: Times::default(),
        }
    }

    fn round(&mut self) {
        let mut full = vec![self.buffer.clone(); COPIES];
        let mut roomy = vec![longer(&self.buffer, 100); COPIES];
        let mut moved = vec![self.buffer.clone(); COPIES];
        let put = |copy: &mut Vec<u8>| {
            let put = Package::open_mut(copy).put_item(black_box(b"/x"), b"t");
            put.expect("room");
        };
        let seconds = [
            seconds_of(&mut full, put),
            seconds_of(&mut roomy, put),
            seconds_of(&mut moved, |copy| {
                make(black_box(&self.moves), &mut copy[OVERHEAD..])
            }),
        ];
        for (times, seconds) in self.times.iter_mut().zip(seconds) {
            times.push(seconds);
        }
    }
}

/// The seconds of a call on each copy.
fn seconds_of(copies: &mut [Vec<u8>], call: impl FnMut(&mut Vec<u8>)) -> f64 {
    let start = seconds();
    copies.iter_mut().for_each(call);
    (seconds() - start) / COPIES as f64
}

/// Times a put into packages with one gap before so many rows and with 128
/// gaps, all in turn: a slow moment of the machine hits all.
fn gaps() {
    let (sizes, hows) = ([64, 128, 256, 500], ["in order", "at random"]);
    let order = |how: &str, count: usize| match how {
        "in order" => (0..count).collect(),
        _ => Random(1).shuffled(count),
    };
    let mut cases = Vec::new();
    for how in hows {
        for rows in sizes {
            let what = format!("gap before {rows} rows, {how}");
            cases.push(Case::new(what, &order(how, rows + 1), |place| place == 0));
        }
        let what = format!("128 gaps, 256 rows, {how}");
        cases.push(Case::new(what, &order(how, 384), |place| place % 3 == 0));
    }
    for _ in 0..ROUNDS {
        cases.iter_mut().for_each(Case::round);
    }
    let print = |case: Case| print_line(&case.what, case.times);
    let times: Vec<f64> = cases.into_iter().map(print).collect();
    for (how, times) in hows.iter().zip(times.chunks(sizes.len() + 1)) {
        for (k, pair) in sizes.windows(2).enumerate() {
            let growth = times[k + 1] / times[k];
            println!(
                "gap before {} rows against {}, {how}: {growth:.2} times",
                pair[1], pair[0]
            );
        }
    }
}

/// Times drops and puts in turn of items of so many bytes, at random places.
fn in_turn(what: &str, count: usize, length: usize) {
    let names: Vec<Vec<u8>> = (0..count).map(|i| format!("/t{i}").into_bytes()).collect();
    let bytes = vec![7; length];
    let mut random = Random(1);
    let order = random.shuffled(count);
    let (mut buffer, mut places) = full(&order, |package, row| {
        package.put_item(&names[row], &bytes).expect("room");
    });
    let mut heap = vec![7; buffer.len() - OVERHEAD];
    let mut roomy = longer(&buffer, 4_000_000); // gathers once in a thousand puts at most
    let mut packages = [
        Package::open_mut(&mut buffer),
        Package::open_mut(&mut roomy),
    ];
    let mut times = Times::default();
    for _ in 0..ROUNDS {
        let (mut rows, mut moves) = (Vec::new(), Vec::new());
        for _ in 0..TURNS {
            let mut last = places.remove(random.below(count));
            rows.push(last.row);
            moves.push(gather(&mut places));
            last.at = heap.len() - last.size;
            places.push(last);
        }
        for (package, times) in packages.iter_mut().zip(&mut times) {
            let start = seconds();
            for &row in black_box(&rows) {
                package.drop_item(&names[row]).expect("held");
                package.put_item(&names[row], &bytes).expect("room");
            }
            times.push((seconds() - start) / TURNS as f64);
        }
        let start = seconds();
        for moves in black_box(&moves) {
            make(moves, &mut heap);
        }
        times[2].push((seconds() - start) / TURNS as f64);
    }
    black_box(heap);
    print_line(what, times);
}

fn main() {
    println!("microseconds; ratio: (put - put with room) / bare moves");
    let (empty, put, roomy, moves, ratio) = ("", "put", "with room", "moves", "ratio");
    println!("{empty:36} {put:>9} {roomy:>9} {moves:>9} {ratio:>8}");
    gaps();
    in_turn("drop and put, full, 256 tiny", 256, 1);
    in_turn("drop and put, full, 240 of 4 KiB", 240, 4096);
}
