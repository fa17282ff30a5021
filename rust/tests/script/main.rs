//! Scripts run by the archive beside the ledger of the reference: the reply of
//! the run, every byte of its output, and what the package then holds.
//!
//! ZOMBIRELS_SCRIPTS sets how many random scripts a test runs. From 2,000 on it
//! is checked that every call met the refusals that it has.

mod built;
mod bytes;
mod edges;
#[allow(dead_code)] // its calls are those of other tests
#[path = "../support/foreign.rs"]
mod foreign;
mod pair;
mod random;
mod single;
#[path = "../support/mod.rs"]
mod support;

use bytes::{output_of, reply_at, script_of};
use edges::short_calls;
use pair::Pair;
use random::{random_calls, random_length, random_tail};
use std::collections::BTreeMap;
use support::calls::Call;
use support::Random;
use zombirels::package::{Package, CAPACITY_MAX, OVERHEAD};
use zombirels::script::{Answer, Code, Script, REPLY_SIZE};
use zombirels::Refusal;

/// How many random scripts a test runs if ZOMBIRELS_SCRIPTS is not set.
const SCRIPTS: usize = 4000;

/// How many scripts must show every expected number of every call.
const COVERED: usize = 2000;

/// Numbers that each call must have met, beside 0.
#[rustfmt::skip]
const EXPECTED: [(Code, &[u64]); 23] = [
    (Code::Start, &[2]), (Code::PutItem, &[4, 5, 6, 10, 11, 12, 15]), (Code::DropItem, &[4, 5, 6, 13]), (Code::PutDefault, &[7, 10, 15]),
    (Code::DropDefault, &[7, 13]), (Code::PutOverride, &[4, 7, 10, 15]), (Code::DropOverride, &[4, 13]),
    (Code::PutRelationship, &[4, 5, 8, 9, 10, 15]), (Code::DropRelationship, &[4, 5, 8, 13]), (Code::FindItem, &[4, 6, 13]),
    (Code::ViewItem, &[]), (Code::Totals, &[]), (Code::ReadPart, &[4, 13]), (Code::MediaType, &[3, 4, 13, 14]), (Code::PartAt, &[3, 13]),
    (Code::ResolveRelationship, &[3, 4, 5, 8, 9, 13]), (Code::WriteTypes, &[3]), (Code::WriteRelationships, &[3, 4, 5]),
    (Code::CutPart, &[4, 13, 15, 17, 18]), (Code::JoinPart, &[4, 13, 18]), (Code::TypeOrigin, &[3, 4, 13]),
    (Code::ReadTypes, &[4, 7, 10, 15, 19, 20]), (Code::ReadRelationships, &[4, 5, 8, 9, 10, 15, 19, 20]),
];

/// What came in the scripts.
#[derive(Default)]
struct Seen {
    /// How often each call met each number, with parameters put or not.
    numbers: BTreeMap<(Code, u64, bool), usize>,
    /// How often a type came from each kind of entry.
    origins: BTreeMap<u64, usize>,
}

impl Seen {
    fn add(&mut self, call: &Call, [number, _, first, ..]: [u64; 5]) {
        let key = (call.code, number, call.puts_parameters());
        *self.numbers.entry(key).or_insert(0) += 1;
        if (call.code, number) == (Code::TypeOrigin, 0) {
            *self.origins.entry(first).or_insert(0) += 1;
        }
    }

    /// Checks that every expected number of every call came, types with
    /// parameters that were put and such that were refused, and types from
    /// entries of each kind.
    fn check(&self) {
        for (code, numbers) in EXPECTED {
            for &number in numbers.iter().chain(&[0]) {
                let met = |parameters| self.numbers.contains_key(&(code, number, parameters));
                assert!(met(false) || met(true), "{code:?} {number} never came");
            }
        }
        for code in [Code::PutDefault, Code::PutOverride] {
            for number in [0, 7] {
                let met = self.numbers.contains_key(&(code, number, true));
                assert!(met, "{code:?} {number} never came with parameters");
            }
        }
        assert!(self.origins.keys().eq(&[0, 1, 2]), "{:?}", self.origins);
    }
}

/// Random scripts of up to 60 calls, with outputs that suffice or not.
#[test]
fn random_scripts() {
    let mut random = Random::new("random scripts");
    let scripts = support::count("ZOMBIRELS_SCRIPTS", SCRIPTS);
    let mut seen = Seen::default();
    let (mut made, mut complete, mut unread) = (0, 0, 0);
    for _ in 0..scripts {
        let capacity = random.pick(&[0, 300, 2000, 6000, 6000]);
        let spare = random.pick(&[0, 0, 1, 700]);
        let mut pair = Pair::new(capacity, spare);
        let calls = random_calls(&mut random, &pair, capacity as u64);
        let script = [script_of(&calls), random_tail(&mut random)].concat();
        let length = random_length(&mut random, &calls);
        let before = random.bytes(length);
        let (out, (written, read, count)) = pair.run(&script, &before);
        pair.compare();
        let mut at = 0;
        // a tail may have begun with a call
        for call in &calls[..count.min(calls.len())] {
            seen.add(call, reply_at(&out[at..]));
            at += call.span();
        }
        made += count;
        complete += usize::from(read == script.len());
        unread += usize::from(written == at + REPLY_SIZE && count == calls.len());
    }
    println!(
        "random scripts: {scripts} scripts, {complete} complete, {unread} with no call behind"
    );
    println!(
        "{made} calls made; by code, number and parameters: {:?}",
        seen.numbers
    );
    println!("type origins by kind: {:?}", seen.origins);
    if scripts < COVERED {
        return;
    }
    assert!(complete * 4 > scripts && complete < scripts && unread > 0);
    seen.check();
}

#[test]
fn empty_scripts() {
    let mut pair = Pair::new(100, 0);
    for length in [0, 1, 40, 100] {
        let (_, told) = pair.run(&[], &vec![7; length]);
        assert_eq!(told, (0, 0, 0));
    }
    let mut buffer = vec![0; 100 + OVERHEAD];
    let package = Package::start(&mut buffer, 100).expect("room");
    let script = Script::new();
    assert_eq!(script.output_len(), 0);
    let run = package.run(&script, &mut []);
    assert!(run.is_complete() && run.answers().next().is_none());
}

/// A start amid a script: on what was no package before it, and on one that it
/// empties. Refused, it leaves what is held.
#[test]
fn starts() {
    let mut script = Script::new();
    script.find_item(b"/a").view_item(b"/a", 3).totals();
    script.start(CAPACITY_MAX + 1).start(20);
    script.put_item(b"/a", b"tile").totals().start(101).totals();
    script
        .start(100)
        .totals()
        .put_item(b"/b", [b'x'; 98])
        .totals();
    let mut buffer = vec![0; 100 + OVERHEAD];
    let mut out = vec![b'.'; script.output_len()];
    let package = Package::open_mut(&mut buffer);
    let run = package.run(&script, &mut out);
    assert!(run.is_complete());
    assert_eq!(run.calls(), 13);
    let answers: Vec<Answer> = run.into_iter().collect();
    let none = Err(Refusal::NotAPackage);
    assert_eq!(answers[0].done(), none);
    assert_eq!(answers[1].values, Ok([0; 3]));
    assert_eq!(
        (answers[1].output(), answers[1].lent),
        (Ok(&[][..]), &b"..."[..])
    );
    assert_eq!(
        answers[2].totals().map(|totals| totals.items),
        none.map(|()| 0)
    );
    assert_eq!(answers[3].done(), Err(Refusal::BadStart));
    assert_eq!(answers[4].done(), Ok(()));
    assert_eq!(answers[5].done(), Ok(()));
    assert_eq!(answers[6].values, Ok([1, 1, 6]));
    assert_eq!(answers[7].done(), Err(Refusal::BadStart));
    assert_eq!(answers[8].values, Ok([1, 1, 6]));
    assert_eq!(answers[9].done(), Ok(()));
    assert_eq!(answers[10].values, Ok([0; 3]));
    assert_eq!(answers[11].done(), Ok(()));
    assert_eq!(answers[12].values, Ok([1, 1, 100]));
    assert_eq!(package.find_item(b"/B"), Ok(98));
}

/// A run that found no room goes on where it ended.
#[test]
fn going_on() {
    let calls = short_calls();
    let script = script_of(&calls);
    let mut whole = Pair::new(100, 0);
    let (expected, _) = whole.run(&script, &vec![7; output_of(&calls)]);
    let mut pair = Pair::new(100, 0);
    let (mut read, mut out) = (0, Vec::new());
    while read < script.len() {
        let (part, told) = pair.run(&script[read..], &[7; 60]);
        assert_eq!(told.2, 1);
        read += told.1;
        out.extend_from_slice(&part[..told.0]);
    }
    assert!(out == expected);
    assert!(pair.package.bytes() == whole.package.bytes());
}

/// Scripts without their refused calls leave the same bytes, and the calls
/// that stay answer the same.
#[test]
fn refused_calls() {
    let mut random = Random::new("refused calls");
    let mut refused = 0;
    for _ in 0..500 {
        let capacity = random.pick(&[100, 2000]);
        let (mut pair, mut other) = (Pair::new(capacity, 0), Pair::new(capacity, 0));
        let calls = random_calls(&mut random, &pair, capacity as u64);
        let (out, _) = pair.run(&script_of(&calls), &vec![7; output_of(&calls)]);
        let (mut kept, mut expected, mut rest) = (Vec::new(), Vec::new(), &out[..]);
        for call in calls {
            let (answer, behind) = rest.split_at(call.span());
            rest = behind;
            if reply_at(answer)[0] == 0 {
                expected.extend_from_slice(answer);
                kept.push(call);
            } else {
                refused += 1;
                let lent = &answer[REPLY_SIZE..];
                assert!(lent.iter().all(|&byte| byte == 7), "{}", call.show());
            }
        }
        let (out, _) = other.run(&script_of(&kept), &vec![7; output_of(&kept)]);
        assert!(out == expected);
        assert!(pair.package.bytes() == other.package.bytes());
    }
    println!("refused calls: {refused} left out");
    assert!(refused > 0);
}
