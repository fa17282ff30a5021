//! Random ledgers: streams read beside entries put one by one, and streams
//! written, read back and written again.

use super::{held, number, started, written_relationships, written_types, Random};
use reference::ledger::Ledger;
use reference::random_streams::{self as made, Damage};
use reference::streams::{self, TypesEntry};
use reference::Refusal;
use std::collections::BTreeMap;

const SOURCES: &[&str] = &["/", "/a", "/A", "/a/b.xml", "/slide/a&b"];
const TYPES: &[&str] = &["a/b", "image/tiff;page=2", "x/&;y=&", "x/'", "x/&lt"];

/// Puts some entries that streams may have, too.
fn fill(random: &mut Random, ledger: &mut Ledger) {
    for _ in 0..random.below(12) {
        let key = random.below(7);
        let media_type = random.pick(TYPES).as_bytes();
        let answer = match random.below(4) {
            0 => ledger.put_item(format!("/i{key}").as_bytes(), b"item"),
            1 => {
                let extension = random.pick(&["xml", "TIF", "a&b", "it's", "é"]);
                ledger.put_default(format!("{extension}{key}").as_bytes(), media_type)
            }
            2 => {
                let name = random.pick(&["/a", "/A/b.xml", "/a&b", "/it's", "/é&amp;"]);
                ledger.put_override(format!("{name}{key}").as_bytes(), media_type)
            }
            _ => put_relationship(random, ledger, key),
        };
        assert!(matches!(number(answer), 0 | 10 | 15));
    }
}

fn put_relationship(random: &mut Random, ledger: &mut Ledger, key: usize) -> Result<(), Refusal> {
    let source = random.pick(SOURCES);
    let id = format!("{}{key}", random.pick(&["r", "R", "_", "a.b-"]));
    let kind = random.pick(&["t:", "t:&", "http://e.org/?a='&amp;'#b"]);
    let (mode, target) = match random.below(2) {
        0 => (0, random.pick(&["x", "a&b", "/c/d.xml", "it's"])),
        _ => (1, random.pick(&["?q&r", "#f", "http://e.org/é", "x"])),
    };
    let [source, id, kind, target] = [source, &id, kind, target].map(str::as_bytes);
    ledger.put_relationship(source, id, kind, mode, target)
}

/// A random ledger with little or much room, and another that is alike.
fn twins(random: &mut Random) -> (Ledger, Ledger) {
    let capacity = [0, 40, 100, 300, 100_000][random.below(5)];
    let (seed, mut ledgers) = (random.below(1 << 40), [(); 2].map(|()| started(capacity)));
    for ledger in &mut ledgers {
        fill(&mut Random(seed as u64), ledger);
    }
    let [first, second] = ledgers;
    (first, second)
}

/// A stream, damaged once in a while.
fn perhaps_damaged(random: &mut Random, stream: Vec<u8>) -> Vec<u8> {
    if random.below(5) > 0 {
        return stream;
    }
    let at = random.below(stream.len());
    let damages = Damage::each(&mut |end| random.below(end));
    damages[random.below(damages.len())].to(&stream, at)
}

/// How often each number is answered.
type Seen = BTreeMap<u64, usize>;

fn require(seen: &Seen, numbers: &[u64]) {
    println!("{seen:?}");
    assert!(seen.keys().eq(numbers));
    assert!(seen.values().all(|&times| times >= 10));
}

#[test]
fn types_beside_puts() {
    let mut random = Random(5_021);
    let mut seen = Seen::new();
    for _ in 0..10_000 {
        let (mut ledger, mut twin) = twins(&mut random);
        let before = held(&ledger);
        let made = made::types(&mut |end| random.below(end));
        let stream = perhaps_damaged(&mut random, made.bytes);
        let mut puts = |entry: &TypesEntry| match entry {
            TypesEntry::Default {
                extension,
                media_type,
            } => twin.put_default(extension, media_type),
            TypesEntry::Override { name, media_type } => twin.put_override(name, media_type),
        };
        let expected = match streams::read_types(&stream) {
            Ok(entries) => number(entries.iter().try_for_each(&mut puts)),
            Err(number) => u64::from(number),
        };
        let answer = number(ledger.read_types(&stream));
        assert_eq!(answer, expected, "{}", stream.escape_ascii());
        let right = if answer == 0 { held(&twin) } else { before };
        assert_eq!(held(&ledger), right);
        *seen.entry(answer).or_default() += 1;
    }
    require(&seen, &[0, 4, 7, 10, 15, 19, 20]);
}

#[test]
fn relationships_beside_puts() {
    let mut random = Random(5_022);
    let mut seen = Seen::new();
    let sources = [SOURCES, &["", "x", "/_rels/.rels"]].concat();
    for _ in 0..10_000 {
        let (mut ledger, mut twin) = twins(&mut random);
        let before = held(&ledger);
        let made = made::relationships(&mut |end| random.below(end));
        let stream = perhaps_damaged(&mut random, made.bytes);
        let source = random.pick(&sources).as_bytes();
        let expected = match (source, streams::read_relationships(&stream)) {
            (b"" | b"x", _) => 4,
            (b"/_rels/.rels", _) => 5,
            (_, Ok(entries)) => number(entries.iter().try_for_each(|entry| {
                twin.put_relationship(source, &entry.id, &entry.kind, entry.mode, &entry.target)
            })),
            (_, Err(number)) => u64::from(number),
        };
        let answer = number(ledger.read_relationships(source, &stream));
        assert_eq!(answer, expected, "{}", stream.escape_ascii());
        let right = if answer == 0 { held(&twin) } else { before };
        assert_eq!(held(&ledger), right);
        *seen.entry(answer).or_default() += 1;
    }
    require(&seen, &[0, 4, 5, 8, 9, 10, 15, 19, 20]);
}

/// What is written for the types is read back as the same entries, into a
/// ledger with just the room for them, and written alike.
#[test]
fn types_written_and_read_back() {
    let mut random = Random(5_023);
    let mut entries = 0;
    for _ in 0..5_000 {
        let mut ledger = started(100_000);
        fill(&mut random, &mut ledger);
        let stream = written_types(&ledger);
        let typed = ledger.defaults().chain(ledger.overrides());
        let charge: usize = typed.map(|(key, kind)| key.len() + kind.len()).sum();
        let mut copy = started(charge as u64);
        assert_eq!(copy.read_types(&stream), Ok(()));
        assert!(copy.defaults().eq(ledger.defaults()));
        assert!(copy.overrides().eq(ledger.overrides()));
        assert_eq!(written_types(&copy), stream);
        assert_eq!(copy.totals().charge, charge as u64);
        entries += copy.defaults().count() + copy.overrides().count();
        if charge > 0 {
            let again = held(&ledger);
            assert_eq!(number(ledger.read_types(&stream)), 10);
            assert_eq!(held(&ledger), again);
            let mut short = started(charge as u64 - 1);
            assert_eq!(number(short.read_types(&stream)), 15);
            assert_eq!(held(&short), (vec![], 0));
        }
    }
    println!("{entries} entries read back");
    assert!(entries > 10_000);
}

/// What is written for a source is read back with it, in another spelling, as
/// the same entries but for that.
#[test]
fn relationships_written_and_read_back() {
    let mut random = Random(5_024);
    let mut entries = 0;
    for _ in 0..5_000 {
        let mut ledger = started(100_000);
        fill(&mut random, &mut ledger);
        for source in SOURCES {
            let stream = written_relationships(&ledger, source);
            let own = ledger.relationships();
            let own = own.filter(|fields| fields[0].eq_ignore_ascii_case(source.as_bytes()));
            let spelling = source.to_ascii_uppercase();
            let rows: Vec<_> = own.map(|[_, rest @ ..]| rest).collect();
            let lengths = rows.iter().map(|row| row.concat().len() - row[2].len());
            let charge: usize = lengths.map(|length| length + source.len()).sum();
            let mut copy = started(charge as u64);
            let read = copy.read_relationships(spelling.as_bytes(), &stream);
            assert_eq!(read, Ok(()));
            let spelled = |row: &[&[u8]; 5]| row[0] == spelling.as_bytes();
            assert!(copy.relationships().all(|row| spelled(&row)));
            let read = copy.relationships().map(|[_, rest @ ..]| rest);
            assert!(read.eq(rows.iter().copied()));
            assert_eq!(written_relationships(&copy, source), stream);
            assert_eq!(copy.totals().charge, charge as u64);
            entries += rows.len();
            if charge > 0 {
                let mut short = started(charge as u64 - 1);
                let read = short.read_relationships(spelling.as_bytes(), &stream);
                assert_eq!((number(read), held(&short)), (15, (vec![], 0)));
                let again = copy.read_relationships(source.as_bytes(), &stream);
                assert_eq!(number(again), 10);
            }
        }
    }
    println!("{entries} entries read back");
    assert!(entries > 5_000);
}
