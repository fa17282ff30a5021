//! Compares what the ledger does with items, parts, Defaults and Overrides,
//! given well-formed fields, with the definitions written down as plain lists
//! that are searched anew for every call. Relationships and the XML streams are
//! not tried here; names are read and compared by the crate itself on both
//! sides.

mod lists;

use lists::{Entry, Lists};
use reference::ledger::{Ledger, Origin, Totals};
use reference::names::is_equivalent;
use reference::Refusal;
use std::collections::BTreeSet;

const LENGTH: u64 = 40_000;

/// A splitmix64 generator.
struct Random(u64);

impl Random {
    fn below(&mut self, end: usize) -> usize {
        self.0 = self.0.wrapping_add(0x9E37_79B9_7F4A_7C15);
        let mut z = self.0;
        z = (z ^ (z >> 30)).wrapping_mul(0xBF58_476D_1CE4_E5B9);
        z = (z ^ (z >> 27)).wrapping_mul(0x94D0_49BB_1331_11EB);
        ((z ^ (z >> 31)) % end as u64) as usize
    }

    fn pick<'a>(&mut self, from: &[&'a str]) -> &'a [u8] {
        from[self.below(from.len())].as_bytes()
    }
}

const PARTS: &[&str] = &[
    "/a", "/A", "/a/b", "/a/B", "/a-", "/ab.x", "/c.X", "/C.x", "/c.x/d",
];
const SUFFIXES: &[&str] = &[
    "",
    "",
    "/[0].piece",
    "/[1].piece",
    "/[2].PIECE",
    "/[0].last.piece",
    "/[1].Last.piece",
    "/[2].last.piece",
];
const CONTENTS: &[&str] = &["", "x", "abc", "0123456789"];
const TYPES: &[&str] = &["a/b", "text/xml", "a/b;c=d"];
const EXTENSIONS: &[&str] = &["x", "X", "y"];
/// Into how many pieces a part is cut; into as many as a set takes more rarely.
const COUNTS: &[u64] = &[0, 1, 1, 2, 2, 3, 3, 4, 5, 10, 11, 12, 257, u64::MAX];
const MANY: &[u64] = &[100, 101, 240, 250, 255, 256];

/// The numbers that cuts and joins met, 0 if they were accepted; the entries
/// that types came from, and the numbers where that was refused.
type Seen = BTreeSet<(&'static str, u64)>;

fn number<T>(answer: Result<T, Refusal>) -> u64 {
    answer.map_or_else(Refusal::number, |_| 0)
}

/// Cuts a part, or joins its pieces, on both sides.
fn cut_or_join(
    random: &mut Random,
    ledger: &mut Ledger,
    lists: &mut Lists,
    part: &[u8],
    seen: &mut Seen,
) {
    if random.below(3) == 0 {
        let join = ledger.join_part(part);
        assert_eq!(join, lists.join(part));
        seen.insert(("join", number(join)));
        return;
    }
    let counts = if random.below(30) == 0 { MANY } else { COUNTS };
    let count = counts[random.below(counts.len())];
    let cut = ledger.cut_part(part, count);
    let values = cut.map(|cut| (cut.size, cut.longer));
    assert_eq!(values, lists.cut(part, count));
    seen.insert(("cut", number(cut)));
}

/// One random call on both sides.
fn call(random: &mut Random, ledger: &mut Ledger, lists: &mut Lists, seen: &mut Seen) {
    let part = random.pick(PARTS);
    let item = [part, random.pick(SUFFIXES)].concat();
    let media_type = random.pick(TYPES);
    let extension = random.pick(EXTENSIONS);
    match random.below(11) {
        0..=3 => {
            let bytes = random.pick(CONTENTS);
            assert_eq!(ledger.put_item(&item, bytes), lists.put(&item, bytes));
        }
        4 | 5 => {
            let index = lists.index(&item);
            assert_eq!(ledger.drop_item(&item), index.map(|_| ()));
            if let Ok(index) = index {
                lists.items.remove(index);
            }
        }
        6 => {
            let expected = lists.put_default(extension, media_type);
            assert_eq!(ledger.put_default(extension, media_type), expected);
        }
        7 => {
            let expected = lists.put_override(part, media_type);
            assert_eq!(ledger.put_override(part, media_type), expected);
        }
        _ => cut_or_join(random, ledger, lists, part, seen),
    }
    if random.below(4) == 0 {
        let held = |list: &mut Vec<Entry>, key: &[u8]| {
            let before = list.len();
            list.retain(|(held, _)| !is_equivalent(held, key));
            if list.len() < before {
                Ok(())
            } else {
                Err(Refusal::NotHeld)
            }
        };
        let dropped = ledger.drop_default(extension);
        assert_eq!(dropped, held(&mut lists.defaults, extension));
        assert_eq!(ledger.drop_override(part), held(&mut lists.overrides, part));
    }
}

fn owned<'a>(items: impl Iterator<Item = (&'a [u8], &'a [u8])>) -> Vec<Entry> {
    let items = items.map(|(name, bytes)| (name.to_vec(), bytes.to_vec()));
    items.collect()
}

/// Asks both sides where a part's type comes from, with any output.
fn compare_origin(
    random: &mut Random,
    ledger: &Ledger,
    lists: &Lists,
    name: &[u8],
    seen: &mut Seen,
) {
    let mut out = [b'.'; 8];
    let lent = random.below(out.len());
    let origin = ledger.type_origin(name, &mut out[..lent]);
    let expected = lists.type_origin(name);
    let written = match expected {
        Ok((kind, key)) if key.len() <= lent => {
            let length = key.len();
            assert_eq!(origin, Ok(Origin { kind, length }));
            seen.insert(("origin", kind));
            key
        }
        Ok((_, key)) => {
            assert_eq!(origin, Err(Refusal::OutputTooShort(key.len())));
            seen.insert(("no origin", 3));
            Vec::new()
        }
        Err(refusal) => {
            assert_eq!(origin, Err(refusal));
            seen.insert(("no origin", refusal.number()));
            Vec::new()
        }
    };
    let kept = out[written.len()..].iter().all(|&byte| byte == b'.');
    assert!(out.starts_with(&written) && kept);
}

/// Asks both sides for all that they hold.
fn compare(random: &mut Random, ledger: &Ledger, lists: &Lists, seen: &mut Seen) {
    let parts = lists.parts();
    let totals = Totals {
        items: lists.items.len() as u64,
        parts: parts.len() as u64,
        charge: lists.charge() as u64,
    };
    assert_eq!(ledger.totals(), totals);
    let mut out = [0; 100];
    for (position, spelling) in (0..).zip(&parts) {
        let length = ledger.part_at(position, &mut out);
        assert_eq!(length.map(|length| &out[..length]), Ok(*spelling));
    }
    assert_eq!(
        ledger.part_at(totals.parts, &mut out),
        Err(Refusal::NotHeld)
    );
    for name in PARTS.iter().map(|name| name.as_bytes()) {
        let expected = lists.part(name).map(|(_, content)| content);
        let offset = random.below(12);
        let length = ledger.read_part(name, offset as u64, &mut out);
        let read = length.map(|length| out[..length].to_vec());
        assert_eq!(
            read,
            expected.map(|content| content[offset.min(content.len())..].to_vec())
        );
        let length = ledger.media_type(name, &mut out);
        assert_eq!(
            length.map(|length| out[..length].to_vec()),
            lists.media_type(name)
        );
        compare_origin(random, ledger, lists, name, seen);
    }
    // the same entries, spelled alike
    let (mut items, mut expected) = (owned(ledger.items()), lists.items.clone());
    items.sort();
    expected.sort();
    assert_eq!(items, expected);
    let item = [random.pick(PARTS), random.pick(SUFFIXES)].concat();
    let bytes = lists.index(&item).map(|index| &lists.items[index].1[..]);
    assert_eq!(ledger.find_item(&item), bytes.map(<[u8]>::len));
    assert_eq!(ledger.view_item(&item), bytes.unwrap_or_default());
}

#[test]
fn random_lists_of_calls() {
    let mut random = Random(20_261_115);
    let mut ledger = Ledger::default();
    let (mut parts, mut seen) = (0, Seen::new());
    for _ in 0..1000 {
        let capacity = [60, 150, 1000, 6000][random.below(4)];
        let started = ledger.start(LENGTH, capacity as u64);
        assert_eq!(started, Ok(()));
        let mut lists = Lists {
            capacity,
            ..Lists::default()
        };
        for _ in 0..60 {
            call(&mut random, &mut ledger, &mut lists, &mut seen);
            compare(&mut random, &ledger, &lists, &mut seen);
            parts += ledger.totals().parts;
        }
    }
    println!("60000 calls compared, {parts} parts seen");
    assert!(parts > 60_000);
    let cuts = [0, 13, 15, 17, 18].map(|number| ("cut", number));
    let joins = [0, 13, 18].map(|number| ("join", number));
    let origins = [0, 1, 2].map(|kind| ("origin", kind));
    let none = [3, 13].map(|number| ("no origin", number));
    let expected = [&cuts[..], &joins, &origins, &none].concat();
    assert_eq!(seen, expected.into_iter().collect());
}
