//! Calls of a script beside the same calls by themselves, on packages, on
//! damaged ones and on foreign buffers.

use crate::bytes::{output_of, script_of};
use crate::foreign::{self, Share, HEADERS, KINDS};
use crate::pair::{Guarded, Pair};
use crate::random::{random_calls, random_length, random_tail};
use crate::support::calls::{self, Call};
use crate::support::{self, numbers, Random};
use crate::SCRIPTS;
use reference::examples::streams::{DEFAULT, RELATIONSHIP};
use zombirels::package::{Package, Resolved};
use zombirels::script::{Answer, Code, HEAD_SIZE, REPLY_SIZE};

/// The same calls by themselves give the same answers and leave the same
/// bytes; the answers of the run tell them.
#[test]
fn one_by_one() {
    let mut random = Random::new("one by one");
    let scripts = support::count("ZOMBIRELS_SCRIPTS", SCRIPTS) / 4;
    let mut made = 0;
    for _ in 0..scripts {
        let capacity = random.pick(&[40, 2000, 6000]);
        let mut pair = Pair::new(capacity, random.pick(&[0, 500]));
        let calls = random_calls(&mut random, &pair, capacity as u64);
        made += run_and_make(&mut random, pair.package.bytes(), &calls);
    }
    println!("one by one: {scripts} scripts, {made} calls made twice");
}

/// Runs calls on the bytes, and makes them one by one on other bytes that hold
/// the same. Compares all answers and the bytes.
fn run_and_make(random: &mut Random, bytes: &mut [u8], calls: &[Call]) -> usize {
    let mut others = bytes.to_vec();
    let script = script_of(calls);
    let before = random.bytes(output_of(calls) + 10);
    let (mut out, mut expected) = (Guarded::new(&before), before.clone());
    let package = Package::open_mut(bytes);
    let run = package.run_bytes(&script, out.bytes());
    assert_eq!(run.written(), output_of(calls));
    assert_eq!((run.read(), run.calls()), (script.len(), calls.len()));
    let single = Package::open_mut(&mut others);
    let (mut answers, mut rest) = (run.answers(), &mut expected[..]);
    for call in calls {
        let (place, behind) = rest.split_at_mut(call.span());
        let (reply, lent) = place.split_at_mut(REPLY_SIZE);
        let right = call.by_archive(single, lent);
        reply.copy_from_slice(&call.reply_bytes(right));
        check_answer(&answers.next().expect("an answer"), call, lent, right);
        rest = behind;
    }
    assert_eq!(answers.next(), None);
    assert!(out.bytes() == expected, "the outputs differ");
    out.check();
    assert!(bytes == others, "the packages differ");
    calls.len()
}

/// An answer beside that of the call by itself and what it left.
fn check_answer(answer: &Answer, call: &Call, lent: &[u8], expected: calls::Answer) {
    assert_eq!(answer.code, Some(call.code));
    assert_eq!(answer.values.map_err(numbers), expected, "{}", call.show());
    assert!(answer.lent == lent, "{}", call.show());
    assert_eq!(answer.done().is_ok(), expected.is_ok());
    let length = expected.map(|[first, second, _]| match call.code {
        Code::TypeOrigin => second,
        _ => first,
    });
    assert_eq!(answer.length().map_err(numbers), length);
    let written = expected.map(|_| &lent[..call.written(expected)]);
    assert_eq!(answer.output().map_err(numbers), written);
    match call.code {
        Code::Totals => {
            let totals = answer.totals().map_err(numbers);
            assert_eq!(totals.map(|t| [t.items, t.parts, t.charge]), expected);
        }
        Code::ResolveRelationship => {
            let resolved = answer.resolved().map_err(numbers);
            let values = |r: Resolved| [r.length, r.mode.number() as usize, usize::from(r.held)];
            assert_eq!(resolved.map(values), expected);
        }
        Code::CutPart => {
            let cut = answer.cut().map_err(numbers);
            assert_eq!(cut.map(|cut| [cut.size, cut.longer, 0]), expected);
        }
        Code::TypeOrigin => {
            let origin = answer.type_origin().map_err(numbers);
            let kind = expected.map(|[kind, ..]| kind as u64);
            assert_eq!(origin.map(|origin| origin.number()), kind);
            let key = origin.map(|origin| origin.key().unwrap_or_default());
            assert_eq!(key, written);
        }
        _ => {}
    }
}

/// A package that a script made, then damaged: bits flipped, bytes changed or
/// the end cut off.
fn damaged(random: &mut Random) -> Vec<u8> {
    let mut pair = Pair::new(2000, random.pick(&[0, 300]));
    let calls = random_calls(random, &pair, 2000);
    pair.run(&script_of(&calls), &vec![0; output_of(&calls)]);
    let mut bytes = pair.package.bytes().to_vec();
    for _ in 0..1 + random.below(6) {
        // mostly in the header and in the first rows, but for the mark
        let at = 8 + random.pick(&[16, 56, 400, bytes.len() - 8]);
        let at = 8 + random.below(at - 8);
        let byte = random.byte();
        bytes[at] = random.pick(&[0, 1, 255, byte, bytes[at] ^ 1, bytes[at] ^ 128]);
    }
    if random.once_in(10) {
        bytes.truncate(random.below(bytes.len()));
    }
    bytes
}

/// On damaged packages a run ends, answers each call as by itself, and writes
/// nothing but what it says.
#[test]
fn damaged_packages() {
    let mut random = Random::new("damaged packages");
    let (mut made, mut none) = (0, 0);
    for _ in 0..support::count("ZOMBIRELS_SCRIPTS", SCRIPTS) / 2 {
        let bytes = damaged(&mut random);
        let pair = Pair::new(2000, 0);
        let calls = random_calls(&mut random, &pair, 2000);
        let mut package = Guarded::new(&bytes);
        none += usize::from(Package::open_mut(package.bytes()).totals().is_err());
        made += run_and_make(&mut random, package.bytes(), &calls);
        package.check();

        // each in an allocation of its own length, for a memory checker
        let mut package = bytes.into_boxed_slice();
        let script = [script_of(&calls), random_tail(&mut random)].concat();
        let script = script.into_boxed_slice();
        let length = random_length(&mut random, &calls);
        let before = random.bytes(length).into_boxed_slice();
        let mut out = before.clone();
        let run = Package::open_mut(&mut package).run_bytes(&script, &mut out);
        let (written, calls) = (run.written(), run.calls());
        assert!(run.read() <= script.len() && calls <= script.len() / HEAD_SIZE);
        let answers = run.answers().filter(|answer| answer.code.is_some());
        assert_eq!(answers.count(), calls);
        assert!(out[written..] == before[written..]);
    }
    println!("damaged packages: {made} calls made twice, {none} were no package");
    assert!(none > 0);
}

/// Every call, one after the other.
fn every_call() -> Vec<Call> {
    let base: &[u8] = b"http://h/p.opc";
    let types = DEFAULT.stream(b"$<$e$>");
    let links = RELATIONSHIP.stream(b"$<$e$>");
    vec![
        Call::new(Code::FindItem, &[b"/a"]),
        Call::new(Code::ViewItem, &[b"/a"]).with_output(5000),
        Call::new(Code::Totals, &[]),
        Call::new(Code::ReadPart, &[b"/a"]).with_output(5000),
        Call::new(Code::MediaType, &[b"/a"]).with_output(100),
        Call::new(Code::TypeOrigin, &[b"/a"]).with_output(100),
        Call::new(Code::PartAt, &[])
            .with_number(300)
            .with_output(100),
        Call::new(Code::ResolveRelationship, &[b"/", b"a", base]).with_output(100),
        Call::new(Code::WriteTypes, &[]).with_output(2_000_000),
        Call::new(Code::WriteRelationships, &[b"/"]).with_output(2_000_000),
        Call::new(Code::CutPart, &[b"/a"]).with_number(2),
        Call::new(Code::JoinPart, &[b"/a"]),
        Call::new(Code::PutItem, &[b"/b", &[7; 100]]),
        Call::new(Code::CutPart, &[b"/b"]).with_number(200),
        Call::new(Code::JoinPart, &[b"/b"]),
        Call::new(Code::DropItem, &[b"/a"]),
        Call::new(Code::PutDefault, &[b"a", b"a/b"]),
        Call::new(Code::DropDefault, &[b"a"]),
        Call::new(Code::PutOverride, &[b"/a", b"a/b"]),
        Call::new(Code::DropOverride, &[b"/a"]),
        Call::new(Code::PutRelationship, &[b"/", b"b", b"a:b", b"a"]),
        Call::new(Code::DropRelationship, &[b"/", b"a"]),
        Call::new(Code::ReadTypes, &[&types]),
        Call::new(Code::ReadTypes, &[&types[1..]]),
        Call::new(Code::ReadRelationships, &[b"/", &links]),
        Call::new(Code::ReadRelationships, &[b"/", &types]),
        Call::new(Code::Start, &[]).with_number(1000),
        Call::new(Code::Totals, &[]),
    ]
}

/// On foreign buffers whose rows all lie in one place, every call in a script.
#[test]
fn foreign_buffers() {
    let mut random = Random::new("foreign buffers");
    let calls = every_call();
    for rows in &KINDS {
        for header in HEADERS {
            for share in [Share::Heap, Share::Used] {
                let bytes = foreign::buffer(rows, header, share, 1_000_000);
                let mut package = Guarded::new(&bytes);
                run_and_make(&mut random, package.bytes(), &calls);
                package.check();
            }
        }
    }
}
