//! Streams read: random ones, those of the list's own fields, and those that
//! were written before.

mod kinds;

pub use kinds::{Reading, KINDS};

use crate::list::{List, Style};
use crate::support::calls::Call;
use crate::support::streams::{self, perhaps_damaged};
use crate::support::types::long_media_type;
use crate::support::Random;
use crate::texts::{self, filled};
use reference::ledger::Ledger;
use reference::streams::{read_relationships, read_types, TypesEntry};
use zombirels::package::{DEFAULTS_MAX, OVERRIDES_MAX, RELATIONSHIPS_MAX};
use zombirels::script::Code;

/// An output that takes the streams of these lists.
const LONG: usize = 1 << 16;

impl List {
    /// A stream read, or the first of calls that are planned around one.
    pub fn reading_call(&mut self, random: &mut Random, ledger: &Ledger) -> Call {
        let planned = match random.below(10) {
            0 => vec![types(&streams::types(random, 4))],
            1 => {
                let stream = streams::relationships(random, 4);
                vec![relationships(&self.source(random), &stream)]
            }
            2..=4 => vec![self.own_types(random, ledger)],
            5..=7 => vec![self.own_relationships(random, ledger)],
            8 => self.written_before(random),
            _ => self.back_again(random, ledger),
        };
        self.planned.extend(planned);
        self.planned.pop_front().expect("a call")
    }

    /// How many entries a stream gets where a set takes so many more: few, as
    /// many, one more, or far more.
    fn entries(&self, random: &mut Random, free: usize) -> usize {
        match random.below(12) {
            0 if self.style == Style::Readings => free + random.below(2),
            1 if self.style == Style::Readings && random.once_in(8) => 257 + random.below(60),
            _ => random.below(5),
        }
    }

    /// A types stream of the list's own fields, whose last entry may just find
    /// room, or not.
    fn own_types(&self, random: &mut Random, ledger: &Ledger) -> Call {
        let mut room = ledger.room() as usize;
        let defaults = random.once_in(2);
        let free = match defaults {
            true => DEFAULTS_MAX - ledger.defaults().count(),
            false => OVERRIDES_MAX - ledger.overrides().count(),
        };
        let count = self.entries(random, free);
        let first = random.below(2000);
        let mut entries = Vec::new();
        for number in 0..count {
            let default = defaults != random.once_in(8);
            let key = match random.once_in(2 + count) {
                true if default => self.extension(random),
                true => self.override_name(random),
                false if default => format!("Ext{}", first + number).into_bytes(),
                false => format!("/Read/{}", first + number).into_bytes(),
            };
            room = room.saturating_sub(key.len());
            let last = number + 1 == count;
            let media_type = match random.below(if last { 2 } else { 4 * count }) {
                0 => {
                    let length = near(random, room, 3, 127);
                    long_media_type(random, length)
                }
                _ if random.once_in(3 + count) => self.media_type(random, room),
                _ => b"a/b".to_vec(),
            };
            room = room.saturating_sub(media_type.len());
            entries.push(match default {
                true => streams::default(key, media_type),
                false => streams::part(key, media_type),
            });
        }
        let stream = streams::types_of(&entries);
        types(&perhaps_damaged(random, stream, 12))
    }

    /// A Relationships part of the list's own fields, likewise.
    fn own_relationships(&self, random: &mut Random, ledger: &Ledger) -> Call {
        let source = self.source(random);
        let mut room = ledger.room() as usize;
        let free = RELATIONSHIPS_MAX - ledger.relationships().count();
        let count = self.entries(random, free);
        let first = random.below(2000);
        let mut entries = Vec::new();
        for number in 0..count {
            let id = match random.once_in(2 + count) {
                true => self.id(random),
                false => format!("read{}", first + number).into_bytes(),
            };
            let kind = match random.once_in(12) {
                true => random.pick(texts::KINDS),
                false => b"a:b",
            };
            room = room.saturating_sub(source.len() + id.len() + kind.len());
            let last = number + 1 == count;
            let target = match random.below(if last { 2 } else { 4 * count }) {
                0 => filled(b"t", b't', near(random, room, 1, 256)),
                _ if random.once_in(3 + count) => self.target(random, room),
                _ => b"t".to_vec(),
            };
            room = room.saturating_sub(target.len());
            let modes = ["", "", "Internal", "External", "External"];
            let mode = match random.once_in(20 * count) {
                true => random.pick(&["internal", " ", "0"]),
                false => random.pick(&modes),
            };
            entries.push(streams::link(id, kind, mode, target));
        }
        let stream = streams::relationships_of(&entries);
        relationships(&source, &perhaps_damaged(random, stream, 12))
    }

    /// A stream that the archive wrote earlier in the list, if there is one.
    fn written_before(&self, random: &mut Random) -> Vec<Call> {
        if self.written.is_empty() {
            return vec![types(&streams::types(random, 4))];
        }
        let (code, stream) = &self.written[random.below(self.written.len())];
        let stream = perhaps_damaged(random, stream.clone(), 6);
        match code {
            Code::WriteTypes => vec![types(&stream)],
            _ => vec![relationships(&self.source(random), &stream)],
        }
    }

    /// What is held of one kind is written, dropped, read from that stream and
    /// written again: the types, or the relationships of a source.
    fn back_again(&self, random: &mut Random, ledger: &Ledger) -> Vec<Call> {
        let mut out = vec![0; LONG];
        let mut sources: Vec<&[u8]> = ledger.relationships().map(|fields| fields[0]).collect();
        sources.push(b"/");
        let source = random.pick(&sources);
        let mut calls = Vec::new();
        if random.once_in(2) {
            let length = ledger.write_types(&mut out).expect("room");
            let write = Call::new(Code::WriteTypes, &[]).with_output(LONG);
            calls.push(write.clone());
            for (key, _) in ledger.defaults() {
                calls.push(Call::new(Code::DropDefault, &[&random.flip_case(key)]));
            }
            for (key, _) in ledger.overrides() {
                calls.push(Call::new(Code::DropOverride, &[&random.flip_case(key)]));
            }
            calls.extend([types(&out[..length]), write]);
        } else {
            let length = ledger.write_relationships(source, &mut out);
            let length = length.expect("room");
            let write = Call::new(Code::WriteRelationships, &[source]).with_output(LONG);
            calls.push(write.clone());
            let rows = ledger.relationships();
            for [own, id, ..] in rows.filter(|fields| fields[0].eq_ignore_ascii_case(source)) {
                let own = random.flip_case(own);
                calls.push(Call::new(Code::DropRelationship, &[&own, id]));
            }
            let spelled = random.flip_case(source);
            calls.extend([relationships(&spelled, &out[..length]), write]);
        }
        calls
    }

    /// Notes the keys that an accepted reading put.
    pub fn note_read(&mut self, call: &Call) {
        let [first, second, ..] = &call.texts;
        match call.code {
            Code::ReadTypes => {
                for entry in read_types(first).expect("accepted") {
                    match entry {
                        TypesEntry::Default { extension, .. } => {
                            self.extensions.push(extension.into_owned());
                        }
                        TypesEntry::Override { name, .. } => self.overrides.push(name.into_owned()),
                    }
                }
            }
            _ => {
                for entry in read_relationships(second).expect("accepted") {
                    let key = (first.clone(), entry.id.into_owned());
                    self.relationships.push(key);
                }
            }
        }
    }
}

/// As much as the room, one more or less, within these limits.
fn near(random: &mut Random, room: usize, least: usize, most: usize) -> usize {
    let length = (room + random.below(3)).saturating_sub(1);
    length.clamp(least, most)
}

fn types(stream: &[u8]) -> Call {
    Call::new(Code::ReadTypes, &[stream])
}

fn relationships(source: &[u8], stream: &[u8]) -> Call {
    Call::new(Code::ReadRelationships, &[source, stream])
}
