//! Random calls on types, relationships and streams.

use crate::list::{List, Style};
use crate::support::calls::Call;
use crate::support::types::{long_media_type, near_media_type};
use crate::support::Random;
use crate::texts::{
    field, filled, random_length, BASES, EXTENSIONS, IDS, KINDS, ODD_EXTENSIONS, ODD_IDS,
    ODD_KINDS, ODD_MODES, RESERVED, TARGETS,
};
use zombirels::script::Code;

impl List {
    /// How many bytes a field gets: such that the entry just fills the
    /// `room`, or is one more or less, if that is within `least` and `most`.
    fn fitting(&self, random: &mut Random, room: usize, least: usize, most: usize) -> usize {
        let length = (room + random.below(3)).saturating_sub(1);
        if random.once_in(2) && (least..=most).contains(&length) {
            length
        } else {
            // up to one too long
            random.pick(&[least, most, most + 1])
        }
    }

    pub fn extension(&self, random: &mut Random) -> Vec<u8> {
        match self.style {
            Style::FullFields if !random.once_in(10) => {
                format!("Ext{}", self.extensions.len() % 100).into_bytes()
            }
            Style::Origins if !random.once_in(6) => self.extension_of_a_part(random),
            _ => field(random, EXTENSIONS, ODD_EXTENSIONS),
        }
    }

    pub fn media_type(&self, random: &mut Random, room: usize) -> Vec<u8> {
        if random.once_in(10) {
            let length = self.fitting(random, room, 3, 127);
            return long_media_type(random, length);
        }
        near_media_type(random)
    }

    pub fn override_name(&self, random: &mut Random) -> Vec<u8> {
        match self.style {
            Style::FullFields if !random.once_in(10) => {
                let which = self.overrides.len() % self.prefixes.len();
                random.flip_case(&self.prefixes[which])
            }
            _ => self.part_name(random),
        }
    }

    pub fn source(&self, random: &mut Random) -> Vec<u8> {
        match random.below(24) {
            0..=5 => b"/".to_vec(),
            6 => random.pick(RESERVED).to_vec(),
            _ => self.part_name(random),
        }
    }

    pub fn id(&self, random: &mut Random) -> Vec<u8> {
        match self.style {
            Style::FullFields if !random.once_in(40) => {
                format!("r{}", self.relationships.len() % 300).into_bytes()
            }
            _ if random.once_in(20) => filled(b"_", b'i', 62 + random.below(3)),
            _ => field(random, IDS, ODD_IDS),
        }
    }

    fn put_relationship(&self, random: &mut Random, room: usize) -> Call {
        let (source, id) = (self.source(random), self.id(random));
        if self.style == Style::FullFields && !random.once_in(8) {
            // well-formed but for the source, so that the set gets full
            let texts: [&[u8]; 4] = [&source, &id, random.pick(KINDS), b"L1/t1.tiff"];
            return Call::new(Code::PutRelationship, &texts).with_number(random.below(2) as u64);
        }
        let kind = match random.below(24) {
            0 => filled(b"a:", b'k', 254 + random.below(3)),
            _ => field(random, KINDS, ODD_KINDS),
        };
        let mode = match random.below(25) {
            0 => random.pick(ODD_MODES),
            n => n as u64 % 2,
        };
        let used = source.len() + id.len() + kind.len();
        let target = self.target(random, room.saturating_sub(used));
        let texts: [&[u8]; 4] = [&source, &id, &kind, &target];
        Call::new(Code::PutRelationship, &texts).with_number(mode)
    }

    pub fn target(&self, random: &mut Random, room: usize) -> Vec<u8> {
        match random.below(10) {
            0 => filled(b"t", b't', self.fitting(random, room, 1, 255)),
            1 => random.joined(TARGETS, 4),
            2 => {
                let which = random.below(self.prefixes.len());
                random.flip_case(&self.prefixes[which])
            }
            _ => field(random, TARGETS, TARGETS),
        }
    }

    /// A package IRI: short, of 253 to 256 bytes that all are escaped, or an
    /// odd one.
    fn base(&self, random: &mut Random) -> Vec<u8> {
        match random.below(16) {
            0 => filled(b"a:", b',', 253 + random.below(4)),
            _ => field(random, BASES, ODD_KINDS),
        }
    }

    /// Most often a held relationship, and an output that suffices.
    fn resolve(&self, random: &mut Random) -> Call {
        let (source, id) = match self.relationships.len() {
            0 => (self.source(random), self.id(random)),
            _ if random.once_in(4) => (self.source(random), self.id(random)),
            count => self.relationships[random.below(count)].clone(),
        };
        let id = match random.below(16) {
            0 => random.flip_case(&id), // ids are compared exactly
            _ => id,
        };
        let length = random_length(random);
        let texts: [&[u8]; 3] = [&random.flip_case(&source), &id, &self.base(random)];
        let lent = random.pick(&[length, 1027]);
        Call::new(Code::ResolveRelationship, &texts).with_output(lent)
    }

    /// A call on types or relationships.
    pub fn field_call(&self, random: &mut Random, room: usize) -> Call {
        let which = match self.style {
            Style::FullFields if !random.once_in(16) => match self.relates {
                true => 40,
                false => random.pick(&[0, 20]),
            },
            Style::Origins if !random.once_in(8) => random.below(40),
            _ => random.below(100),
        };
        match which {
            0..=14 => {
                let extension = self.extension(random);
                let media_type = self.media_type(random, room.saturating_sub(extension.len()));
                Call::new(Code::PutDefault, &[&extension, &media_type])
            }
            15..=19 => Call::new(Code::DropDefault, &[&self.dropped_extension(random)]),
            20..=34 => {
                let name = self.override_name(random);
                let media_type = self.media_type(random, room.saturating_sub(name.len()));
                Call::new(Code::PutOverride, &[&name, &media_type])
            }
            35..=39 => Call::new(Code::DropOverride, &[&self.dropped_override(random)]),
            40..=64 => self.put_relationship(random, room),
            65..=74 => self.drop_relationship(random),
            75..=87 => self.resolve(random),
            _ => {
                let length = random_length(random);
                let name = self.part_name(random);
                Call::new(Code::MediaType, &[&name]).with_output(random.pick(&[length, 127]))
            }
        }
    }

    fn dropped_extension(&self, random: &mut Random) -> Vec<u8> {
        if self.extensions.is_empty() || random.once_in(4) {
            return self.extension(random);
        }
        let held = &self.extensions[random.below(self.extensions.len())];
        random.flip_case(held)
    }

    fn dropped_override(&self, random: &mut Random) -> Vec<u8> {
        if self.overrides.is_empty() || random.once_in(4) {
            return self.override_name(random);
        }
        let held = &self.overrides[random.below(self.overrides.len())];
        random.flip_case(held)
    }

    fn drop_relationship(&self, random: &mut Random) -> Call {
        let (source, id) = if self.relationships.is_empty() || random.once_in(4) {
            (self.source(random), self.id(random))
        } else {
            let (source, id) = &self.relationships[random.below(self.relationships.len())];
            let id = match random.below(8) {
                0 => random.flip_case(id), // ids are compared exactly
                _ => id.clone(),
            };
            (random.flip_case(source), id)
        };
        Call::new(Code::DropRelationship, &[&source, &id])
    }

    /// A call that writes a stream; most often of a source that is held.
    pub fn stream_call(&self, random: &mut Random) -> Call {
        let length = random_length(random);
        let length = random.pick(&[length, 1 << 16]);
        if random.once_in(3) {
            return Call::new(Code::WriteTypes, &[]).with_output(length);
        }
        let source = match self.relationships.len() {
            0 => self.source(random),
            _ if random.once_in(4) => self.source(random),
            count => {
                let (source, _) = &self.relationships[random.below(count)];
                random.flip_case(source)
            }
        };
        Call::new(Code::WriteRelationships, &[&source]).with_output(length)
    }
}
