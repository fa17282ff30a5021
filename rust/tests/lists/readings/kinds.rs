//! What is remarkable about streams that are read.

use super::LONG;
use crate::support::calls::{Answer, Call};
use reference::ledger::Ledger;
use reference::names::check_source;
use reference::streams::{read_relationships, read_types, RelationshipEntry, TypesEntry};
use reference::Refusal;
use zombirels::package::{DEFAULTS_MAX, OVERRIDES_MAX, RELATIONSHIPS_MAX};
use zombirels::script::Code;

/// What lists of readings must show, as [`Reading::kinds`] tells it.
pub const KINDS: [&str; 16] = [
    "no entry",
    "a set filled",
    "one more than a set takes",
    "257 entries or more",
    "all room",
    "a byte too much",
    "a key held",
    "a key twice",
    "a key twice in another case",
    "refused at the first of some",
    "refused amid",
    "refused at the last of some",
    "19 behind entries",
    "20 behind entries",
    "types read back",
    "relationships read back",
];

/// A stream to be read, and what was held before.
pub struct Reading<'a> {
    call: &'a Call,
    before: Ledger,
    /// The keys of its entries, a letter for their set first, and what each
    /// counts.
    entries: Vec<(Vec<u8>, usize)>,
}

impl<'a> Reading<'a> {
    pub fn new(call: &'a Call, ledger: &Ledger) -> Reading<'a> {
        let [first, second, ..] = &call.texts;
        let entries = match call.code {
            Code::ReadTypes => read_types(first).map(|all| all.iter().map(typed).collect()),
            _ => {
                let counted = |entry: &RelationshipEntry| {
                    let key = [b"r", &*entry.id].concat();
                    let fields = entry.id.len() + entry.kind.len() + entry.target.len();
                    (key, first.len() + fields)
                };
                read_relationships(second).map(|all| all.iter().map(counted).collect())
            }
        };
        Reading {
            call,
            before: ledger.clone(),
            entries: entries.unwrap_or_default(),
        }
    }

    /// What is remarkable about the reading, after which this is held.
    pub fn kinds(self, answer: Answer, after: &Ledger) -> Vec<&'static str> {
        let count = self.entries.len();
        let number = answer.err().map_or(0, |(number, _)| number);
        let kinds = match number {
            0 => vec![
                ("no entry", count == 0),
                ("a set filled", count > 0 && is_full(after)),
                ("all room", count > 0 && after.room() == 0),
                (self.back(), count > 0 && self.writes_the_same(after)),
            ],
            19 | 20 => {
                let [first, second, ..] = &self.call.texts;
                let behind = [&first[..], second].iter().any(|text| begins_entry(text));
                vec![
                    ("19 behind entries", number == 19 && behind),
                    ("20 behind entries", number == 20 && behind),
                ]
            }
            _ if self.source_refused() => Vec::new(),
            _ => self.kinds_of_refused(number),
        };
        let kinds = kinds.into_iter().filter(|(_, is_so)| *is_so);
        kinds.map(|(kind, _)| kind).collect()
    }

    fn source_refused(&self) -> bool {
        let source = &self.call.texts[0];
        self.call.code == Code::ReadRelationships && check_source(source).is_err()
    }

    fn back(&self) -> &'static str {
        match self.call.code {
            Code::ReadTypes => "types read back",
            _ => "relationships read back",
        }
    }

    /// Whether the stream is what is written then.
    fn writes_the_same(&self, after: &Ledger) -> bool {
        let [first, second, ..] = &self.call.texts;
        let mut out = vec![0; LONG];
        let (written, stream) = match self.call.code {
            Code::ReadTypes => (after.write_types(&mut out), first),
            _ => (after.write_relationships(first, &mut out), second),
        };
        written.is_ok_and(|length| out[..length] == stream[..])
    }

    /// Where the first entry is that is refused.
    fn place(&self) -> Option<usize> {
        let [first, second, ..] = &self.call.texts;
        let mut ledger = self.before.clone();
        let refused: Vec<Result<(), Refusal>> = match self.call.code {
            Code::ReadTypes => read_types(first).map(|all| {
                let put = |entry: &TypesEntry| match entry {
                    TypesEntry::Default {
                        extension,
                        media_type,
                    } => ledger.put_default(extension, media_type),
                    TypesEntry::Override { name, media_type } => {
                        ledger.put_override(name, media_type)
                    }
                };
                all.iter().map(put).collect()
            }),
            _ => read_relationships(second).map(|all| {
                let put = |entry: &RelationshipEntry| {
                    let RelationshipEntry { id, kind, .. } = entry;
                    ledger.put_relationship(first, id, kind, entry.mode, &entry.target)
                };
                all.iter().map(put).collect()
            }),
        }
        .ok()?;
        refused.iter().position(Result::is_err)
    }

    fn kinds_of_refused(&self, number: u64) -> Vec<(&'static str, bool)> {
        let count = self.entries.len();
        let Some(place) = self.place() else {
            return Vec::new();
        };
        let (key, _) = &self.entries[place];
        let earlier = &self.entries[..place];
        let twice = earlier.iter().any(|(other, _)| other == key);
        let folded = |(other, _): &(Vec<u8>, usize)| {
            other.eq_ignore_ascii_case(key) && other != key && key[0] != b'r'
        };
        let otherwise = !twice && earlier.iter().any(folded);
        let charge: usize = self.entries[..=place].iter().map(|(_, size)| size).sum();
        let room = self.before.room() as usize;
        vec![
            ("a key twice", number == 10 && twice),
            ("a key twice in another case", number == 10 && otherwise),
            ("a key held", number == 10 && !twice && !otherwise),
            ("a byte too much", number == 15 && charge == room + 1),
            (
                "one more than a set takes",
                number == 15 && charge <= room && place + 1 == count,
            ),
            (
                "257 entries or more",
                number == 15 && charge <= room && count > 256,
            ),
            ("refused at the first of some", place == 0 && count > 1),
            ("refused amid", place > 0 && place + 1 < count),
            (
                "refused at the last of some",
                place > 0 && place + 1 == count,
            ),
        ]
    }
}

/// The key of an entry, a letter for its set first, and what it counts.
fn typed(entry: &TypesEntry) -> (Vec<u8>, usize) {
    let (set, key, media_type) = match entry {
        TypesEntry::Default {
            extension,
            media_type,
        } => (b"d", extension, media_type),
        TypesEntry::Override { name, media_type } => (b"o", name, media_type),
    };
    ([set, &**key].concat(), key.len() + media_type.len())
}

/// Whether one of the sets that streams fill is full.
fn is_full(ledger: &Ledger) -> bool {
    ledger.defaults().count() == DEFAULTS_MAX
        || ledger.overrides().count() == OVERRIDES_MAX
        || ledger.relationships().count() == RELATIONSHIPS_MAX
}

/// Whether a stream has the start of an entry that is an empty tag.
fn begins_entry(stream: &[u8]) -> bool {
    let starts: [&[u8]; 3] = [b"<Default ", b"<Override ", b"<Relationship "];
    starts
        .iter()
        .any(|start| stream.windows(start.len()).any(|bytes| bytes == *start))
}
