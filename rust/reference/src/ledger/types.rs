//! The calls on Defaults, Overrides and media types.

use super::{charge, Ledger};
use crate::names::{extension, fold, is_extension, is_media_type, is_part_name};
use crate::xml::Xml;
use crate::{write_out, Refusal};
use std::collections::BTreeMap;

const DEFAULTS_MAX: usize = 64;
const OVERRIDES_MAX: usize = 64;

/// A Default (key: extension) or an Override (key: part name).
#[derive(Clone)]
pub(super) struct Typed {
    key: Vec<u8>,
    media_type: Vec<u8>,
}

impl Typed {
    fn new(key: &[u8], media_type: &[u8]) -> Typed {
        Typed {
            key: key.to_vec(),
            media_type: media_type.to_vec(),
        }
    }

    pub(super) fn charge(&self) -> u64 {
        charge(&[&self.key, &self.media_type])
    }
}

/// Defaults or Overrides by their folded keys.
pub(super) type Types = BTreeMap<Vec<u8>, Typed>;

/// The entries that a media type may come from, by their numbers.
const NEITHER: u64 = 0;
const DEFAULT: u64 = 1;
const OVERRIDE: u64 = 2;

/// What `type_origin` answers.
#[derive(Clone, Copy, Debug, PartialEq, Eq)]
pub struct Origin {
    /// 2 for an Override, 1 for a Default, 0 for neither.
    pub kind: u64,
    /// The length of the entry's key.
    pub length: usize,
}

impl Ledger {
    /// Refuses a Default or an Override beside those held: 10 or 15.
    fn check_typed(&self, held: &Types, max: usize, entry: &Typed) -> Result<(), Refusal> {
        if held.contains_key(&fold(&entry.key)) {
            return Err(Refusal::Taken);
        }
        self.check_room(held.len(), max, entry.charge())
    }

    pub fn put_default(&mut self, extension: &[u8], media_type: &[u8]) -> Result<(), Refusal> {
        if !is_extension(extension) || !is_media_type(media_type) {
            return Err(Refusal::BadType);
        }
        let entry = Typed::new(extension, media_type);
        self.check_typed(&self.defaults, DEFAULTS_MAX, &entry)?;
        self.charge += entry.charge();
        self.defaults.insert(fold(extension), entry);
        Ok(())
    }

    pub fn drop_default(&mut self, extension: &[u8]) -> Result<(), Refusal> {
        if !is_extension(extension) {
            return Err(Refusal::BadType);
        }
        let entry = self.defaults.remove(&fold(extension));
        self.charge -= entry.ok_or(Refusal::NotHeld)?.charge();
        Ok(())
    }

    pub fn put_override(&mut self, name: &[u8], media_type: &[u8]) -> Result<(), Refusal> {
        if !is_part_name(name) {
            return Err(Refusal::NotAPartName);
        }
        if !is_media_type(media_type) {
            return Err(Refusal::BadType);
        }
        let entry = Typed::new(name, media_type);
        self.check_typed(&self.overrides, OVERRIDES_MAX, &entry)?;
        self.charge += entry.charge();
        self.overrides.insert(fold(name), entry);
        Ok(())
    }

    pub fn drop_override(&mut self, name: &[u8]) -> Result<(), Refusal> {
        if !is_part_name(name) {
            return Err(Refusal::NotAPartName);
        }
        let entry = self.overrides.remove(&fold(name));
        self.charge -= entry.ok_or(Refusal::NotHeld)?.charge();
        Ok(())
    }

    /// Copies the media type of a part.
    pub fn media_type(&self, name: &[u8], out: &mut [u8]) -> Result<usize, Refusal> {
        self.part(name)?;
        let media_type = self.type_of(name).ok_or(Refusal::NoMediaType)?;
        write_out(out, media_type)
    }

    pub(super) fn type_of(&self, name: &[u8]) -> Option<&[u8]> {
        self.entry_of(name).map(|(_, entry)| &entry.media_type[..])
    }

    /// The Override of a name, else the Default of its extension, and which of
    /// them it is.
    fn entry_of(&self, name: &[u8]) -> Option<(u64, &Typed)> {
        if let Some(entry) = self.overrides.get(&fold(name)) {
            return Some((OVERRIDE, entry));
        }
        let entry = self.defaults.get(&fold(extension(name)?))?;
        Some((DEFAULT, entry))
    }

    /// The extensions of all Defaults, and their types.
    pub fn defaults(&self) -> impl Iterator<Item = (&[u8], &[u8])> {
        entries(&self.defaults)
    }

    /// The names of all Overrides, and their types.
    pub fn overrides(&self) -> impl Iterator<Item = (&[u8], &[u8])> {
        entries(&self.overrides)
    }

    /// Copies the key of the entry that a part's media type comes from, in its
    /// own spelling. Where there is none, any output suffices.
    pub fn type_origin(&self, name: &[u8], out: &mut [u8]) -> Result<Origin, Refusal> {
        self.part(name)?;
        let (kind, key) = match self.entry_of(name) {
            Some((kind, entry)) => (kind, &entry.key[..]),
            None => (NEITHER, &b""[..]),
        };
        let length = write_out(out, key)?;
        Ok(Origin { kind, length })
    }

    /// Writes the Media Types stream.
    pub fn write_types(&self, out: &mut [u8]) -> Result<usize, Refusal> {
        let mut xml = Xml::start("Types", "content-types");
        for entry in self.defaults.values() {
            xml.entry(
                "Default",
                &[
                    ("Extension", &entry.key),
                    ("ContentType", &entry.media_type),
                ],
            );
        }
        for entry in self.overrides.values() {
            xml.entry(
                "Override",
                &[("PartName", &entry.key), ("ContentType", &entry.media_type)],
            );
        }
        write_out(out, &xml.end("Types"))
    }
}

/// The keys and types of all entries.
fn entries(types: &Types) -> impl Iterator<Item = (&[u8], &[u8])> {
    let entries = types.values();
    entries.map(|entry| (&entry.key[..], &entry.media_type[..]))
}
