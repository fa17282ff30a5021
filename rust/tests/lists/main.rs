//! Random lists of calls on one package: the archive beside the ledger of the
//! reference. Compared are every answer, every output byte, every viewed byte,
//! and at the end of each list all entries by their positions.
//!
//! There are ten kinds of lists, 30,000 lists in all. ZOMBIRELS_LISTS sets how
//! many each kind gets. From 1,000 on it is checked that each kind meets the
//! refusals that it is there for.

mod cuts;
mod entries;
mod fields;
mod items;
mod list;
mod origins;
mod pair;
mod readings;
#[path = "../support/mod.rs"]
mod support;
mod sweep;
mod texts;

use list::{List, Style};
use pair::{Pair, Seen};
use reference::ledger::Ledger;
use support::calls::Call;
use support::outputs::GUARD;
use support::Random;
use zombirels::package::{Package, OVERHEAD};
use zombirels::script::Code;

/// How many lists each kind gets if ZOMBIRELS_LISTS is not set.
const LISTS: usize = 3000;

/// How many lists of a kind must show each expected combination of a call and
/// a number. The rarest one comes about once in 20 lists.
const COVERED: usize = 1000;

/// What lists of each kind must show of types with parameters: put, refused
/// and written again.
const PARAMETERS: [(Code, u64); 6] = [
    (Code::PutDefault, 0),
    (Code::PutDefault, 7),
    (Code::PutOverride, 0),
    (Code::PutOverride, 7),
    (Code::MediaType, 0),
    (Code::WriteTypes, 0),
];

/// Runs one list of 50 to 400 calls on a buffer of just the right length, or
/// a longer one, and then starts anew at the limits.
fn run_list(random: &mut Random, style: Style, seen: &mut Seen) -> usize {
    let mut list = List::new(random, style);
    let length = list.lent as usize + OVERHEAD;
    let mut bytes = random.bytes(length + 2 * GUARD);
    let guards = (bytes[..GUARD].to_vec(), bytes[GUARD + length..].to_vec());
    let buffer = &mut bytes[GUARD..GUARD + length];
    let mut ledger = Ledger::default();
    ledger.start(length as u64, list.capacity).expect("room");
    let mut pair = Pair {
        package: Package::start(buffer, list.capacity).expect("room"),
        ledger,
        seen,
        made: vec![Call::new(Code::Start, &[]).with_number(list.capacity)],
        wrote: None,
    };
    let count = match style {
        Style::Full | Style::FullFields => 350 + random.below(51),
        _ => 50 + random.below(351),
    };
    for _ in 0..count {
        let call = list.call(random, &pair.ledger);
        if pair.compare(random, &call).is_ok() {
            if let Some(stream) = pair.wrote.take() {
                list.note_written(random, call.code, stream);
            }
            list.note(call);
        }
        pair.some_entries(random);
    }
    pair.sweep_entries(random);
    pair.sweep(random, &list);
    pair.sweep_starts(random, list.lent);
    let calls = pair.made.len();
    assert!(bytes[..GUARD] == guards.0 && bytes[GUARD + length..] == guards.1);
    calls
}

/// Runs all lists of a style. If there are enough for that, checks that each
/// call was refused by each of these numbers, or accepted for 0, and that
/// targets were resolved of each of these modes, held or not.
fn run_lists(style: Style, expected: &[(Code, &[u64])], resolved: &[(usize, usize)]) {
    let test = format!("{style:?} lists");
    let mut random = Random::new(&test);
    let lists = support::count("ZOMBIRELS_LISTS", LISTS);
    let (mut seen, mut calls) = (Seen::default(), 0);
    for _ in 0..lists {
        calls += run_list(&mut random, style, &mut seen);
    }
    let (numbers, parameters) = (&seen.numbers, &seen.parameters);
    println!("{test}: {lists} lists, {calls} calls compared; by call and number: {numbers:?}");
    println!("{test}: with parameters: {parameters:?}");
    println!("{test}: remarkable: {:?}", seen.kinds);
    seen.entries.print(&test);
    if lists < COVERED {
        return;
    }
    for &(code, numbers) in expected {
        for &number in numbers {
            let met = seen.numbers.contains_key(&(code, number));
            assert!(met, "{test}: {code:?} {number} never came");
        }
    }
    for (code, number) in PARAMETERS {
        let met = seen.parameters.contains_key(&(code, number));
        assert!(met, "{test}: {code:?} {number} never came with parameters");
    }
    let kinds = match style {
        Style::Cuts => &cuts::KINDS[..],
        Style::Origins => &origins::KINDS,
        Style::Readings => &readings::KINDS,
        _ => &[],
    };
    for kind in kinds {
        assert!(seen.kinds.contains_key(kind), "{test}: {kind} never came");
    }
    seen.entries.check(style);
    for answer in resolved {
        let met = seen.resolved.contains(answer);
        assert!(met, "{test}: no target was resolved to {answer:?}");
    }
}

#[test]
fn crowded_lists() {
    run_lists(
        Style::Crowded,
        &[
            (Code::Start, &[0, 2]),
            (Code::PutItem, &[0, 4, 5, 6, 10, 11, 12, 15]),
            (Code::DropItem, &[0, 4, 5, 6, 13]),
            (Code::FindItem, &[0, 4, 6, 13]),
            (Code::ViewItem, &[0]),
            (Code::ReadPart, &[0, 4, 13]),
            (Code::PartAt, &[0, 3, 13]),
            (Code::Totals, &[0]),
            (Code::CutPart, &[0, 4, 13, 15, 17, 18]),
            (Code::JoinPart, &[0, 4, 13, 18]),
        ],
        &[],
    );
}

#[test]
fn full_lists() {
    run_lists(
        Style::Full,
        &[
            (Code::PutItem, &[0, 10, 12, 15]),
            (Code::DropItem, &[0, 13]),
            (Code::FindItem, &[0, 13]),
            (Code::PartAt, &[0, 3, 13]),
            (Code::CutPart, &[0, 15]),
            (Code::JoinPart, &[0, 13]),
        ],
        &[],
    );
}

#[test]
fn tight_lists() {
    run_lists(
        Style::Tight,
        &[
            (Code::Start, &[0, 2]),
            (Code::PutItem, &[0, 10, 11, 12, 15]),
            (Code::DropItem, &[0, 13]),
            (Code::ReadPart, &[0, 13]),
            (Code::CutPart, &[0, 15]),
            (Code::JoinPart, &[0, 13]),
        ],
        &[],
    );
}

#[test]
fn pieces_lists() {
    run_lists(
        Style::Pieces,
        &[
            (Code::PutItem, &[0, 10, 12]),
            (Code::DropItem, &[0, 13]),
            (Code::ReadPart, &[0, 4, 13]),
            (Code::PartAt, &[0, 3, 13]),
            (Code::CutPart, &[0, 13, 18]),
            (Code::JoinPart, &[0, 13, 18]),
        ],
        &[],
    );
}

#[test]
fn tiles_lists() {
    run_lists(
        Style::Tiles,
        &[
            (Code::PutItem, &[0, 10, 12, 15]),
            (Code::DropItem, &[0, 13]),
            (Code::ViewItem, &[0]),
            (Code::ReadPart, &[0, 13]),
            (Code::CutPart, &[0, 15, 17, 18]),
            (Code::JoinPart, &[0, 13, 18]),
        ],
        &[],
    );
}

#[test]
fn cuts_lists() {
    run_lists(
        Style::Cuts,
        &[
            (Code::CutPart, &[0, 4, 13, 15, 17, 18]),
            (Code::JoinPart, &[0, 4, 13, 18]),
            (Code::PutItem, &[0, 10, 11, 12, 15]),
            (Code::DropItem, &[0, 13]),
            (Code::FindItem, &[0, 13]),
            (Code::ViewItem, &[0]),
            (Code::ReadPart, &[0, 13]),
            (Code::MediaType, &[0, 13, 14]),
            (Code::PartAt, &[0, 13]),
        ],
        &[],
    );
}

#[test]
fn fields_lists() {
    run_lists(
        Style::Fields,
        &[
            (Code::PutDefault, &[0, 7, 10, 15]),
            (Code::DropDefault, &[0, 7, 13]),
            (Code::PutOverride, &[0, 4, 7, 10, 15]),
            (Code::DropOverride, &[0, 4, 13]),
            (Code::MediaType, &[0, 3, 4, 13, 14]),
            (Code::TypeOrigin, &[0, 3, 4, 13]),
            (Code::WriteTypes, &[0, 3]),
            (Code::WriteRelationships, &[0, 3, 4, 5]),
            (Code::PutRelationship, &[0, 4, 5, 8, 9, 10, 15]),
            (Code::DropRelationship, &[0, 4, 5, 8, 13]),
            (Code::ResolveRelationship, &[0, 3, 4, 5, 8, 9, 13]),
        ],
        // internal, not held and held, and external
        &[(0, 0), (0, 1), (1, 0)],
    );
}

#[test]
fn origins_lists() {
    run_lists(
        Style::Origins,
        &[
            (Code::TypeOrigin, &[0, 3, 4, 13]),
            (Code::MediaType, &[0, 13, 14]),
            (Code::PutDefault, &[0, 7, 10, 15]),
            (Code::DropDefault, &[0, 13]),
            (Code::PutOverride, &[0, 4, 7, 10, 15]),
            (Code::DropOverride, &[0, 4, 13]),
        ],
        &[],
    );
}

#[test]
fn full_fields_lists() {
    run_lists(
        Style::FullFields,
        &[
            (Code::PutDefault, &[0, 7, 15]),
            (Code::PutOverride, &[0, 4, 7, 15]),
            (Code::PutRelationship, &[0, 4, 5, 8, 9, 15]),
        ],
        &[],
    );
}

#[test]
fn readings_lists() {
    run_lists(
        Style::Readings,
        &[
            (Code::ReadTypes, &[0, 4, 7, 10, 15, 19, 20]),
            (Code::ReadRelationships, &[0, 4, 5, 8, 9, 10, 15, 19, 20]),
            (Code::WriteTypes, &[0, 3]),
            (Code::WriteRelationships, &[0, 3, 4, 5]),
            (Code::PutDefault, &[0, 7, 10, 15]),
            (Code::PutOverride, &[0, 4, 7, 10, 15]),
            (Code::PutRelationship, &[0, 4, 5, 8, 9, 10, 15]),
        ],
        &[(0, 0), (1, 0)],
    );
}
