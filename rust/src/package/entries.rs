//! The entries of a set by their positions.

use super::Package;
use crate::iri::IRI_MAX;
use crate::lent;
use crate::names::{EXTENSION_MAX, ID_MAX, ITEM_NAME_MAX, MEDIA_TYPE_MAX, PART_NAME_MAX};
use crate::owned;
use crate::Refusal;
use alloc::string::String;
use alloc::vec;
use alloc::vec::Vec;
use core::fmt;
use core::iter::FusedIterator;
use core::ops::Range;

// The sets.
pub(super) const ITEMS: u64 = 0;
pub(super) const DEFAULTS: u64 = 1;
pub(super) const OVERRIDES: u64 = 2;
pub(super) const RELATIONSHIPS: u64 = 3;

/// The length that suffices for every field but an item's bytes.
const TEXT_MAX: usize = ITEM_NAME_MAX;

/// What [`Package::entry_at`] answers.
#[derive(Clone, Copy, Debug, PartialEq, Eq, Hash)]
pub struct EntryField {
    /// How many bytes of the output are the field.
    pub length: usize,
    /// How many entries the set has.
    pub entries: usize,
}

impl Package {
    /// Copies a field of the entry at a position, from 0, of a set, in the
    /// order of its keys. The iterators ([`Package::items`] and its like) stand
    /// on it.
    ///
    /// | set | entries | fields |
    /// |---|---|---|
    /// | 0 | items | 0 name, 1 bytes |
    /// | 1 | Defaults | 0 extension, 1 media type |
    /// | 2 | Overrides | 0 part name, 1 media type |
    /// | 3 | relationships | 0 source, 1 id, 2 type, 3 mode (one byte, 0 or 1), 4 target |
    ///
    /// # Errors
    ///
    /// [`Refusal::NotAPackage`]; [`Refusal::BadRelationshipField`] if there is
    /// no such set or field; [`Refusal::NotHeld`] past the last entry;
    /// [`Refusal::OutputTooShort`].
    ///
    /// ```
    /// use zombirels::package::{EntryField, PackageBuf};
    /// use zombirels::Refusal;
    /// let mut slide = PackageBuf::start(100)?;
    /// slide.put_default("xml", "text/xml")?;
    /// slide.put_default("TIFF", "image/tiff")?;
    /// let mut out = [0; 31];
    /// let field = slide.entry_at(1, 0, 0, &mut out)?;
    /// assert_eq!(field, EntryField { length: 4, entries: 2 });
    /// assert_eq!(&out[..4], b"TIFF");
    /// assert_eq!(slide.entry_at(1, 2, 0, &mut out), Err(Refusal::NotHeld));
    /// # Ok::<(), Refusal>(())
    /// ```
    pub fn entry_at(
        &self,
        set: u64,
        position: u64,
        field: u64,
        out: &mut [u8],
    ) -> Result<EntryField, Refusal> {
        let reply = lent::entry_at(&self.0, [set, position, field], out);
        let [length, entries] = reply.values()?;
        Ok(EntryField { length, entries })
    }

    /// A field of the entry at a position of a set. An item's bytes, which may
    /// be many, are asked for their number first.
    ///
    /// # Errors
    ///
    /// As [`Package::entry_at`], but for the output.
    ///
    /// ```
    /// use zombirels::package::PackageBuf;
    /// let mut slide = PackageBuf::start(100)?;
    /// slide.put_item("/t3", "tile")?;
    /// assert_eq!(slide.entry_at_to_vec(0, 0, 1)?, b"tile");
    /// # Ok::<(), zombirels::Refusal>(())
    /// ```
    pub fn entry_at_to_vec(&self, set: u64, position: u64, field: u64) -> Result<Vec<u8>, Refusal> {
        owned::to_vec(field_max(set, field), |out| {
            let answer = self.entry_at(set, position, field, out)?;
            Ok(answer.length)
        })
    }

    /// A field of a held entry, other than an item's bytes. Only in bytes that
    /// no calls made it may be refused, or too long; then it has no bytes.
    pub(super) fn field(&self, set: u64, position: usize, field: u64) -> Vec<u8> {
        let mut out = [0; TEXT_MAX];
        let answer = self.entry_at(set, position as u64, field, &mut out);
        let length = answer.map_or(0, |field| field.length);
        out[..length].to_vec()
    }

    /// The same as text.
    pub(super) fn field_text(&self, set: u64, position: usize, field: u64) -> String {
        lossy(self.field(set, position, field))
    }

    /// All entries of a set.
    pub(super) fn entries<'a, E>(
        &'a self,
        set: u64,
        read: fn(&'a Package, usize) -> E,
    ) -> Result<Entries<'a, E>, Refusal> {
        let count = self.count(set)?;
        Ok(Entries::new(self, 0..count, read))
    }

    /// How many entries a set has; the first one tells.
    pub(super) fn count(&self, set: u64) -> Result<usize, Refusal> {
        let mut answer = self.entry_at(set, 0, 0, &mut [0; TEXT_MAX]);
        if let Err(Refusal::OutputTooShort { needed }) = answer {
            answer = self.entry_at(set, 0, 0, &mut vec![0; needed]);
        }
        match answer {
            Ok(field) => Ok(field.entries),
            Err(Refusal::NotAPackage) => Err(Refusal::NotAPackage),
            Err(_) => Ok(0),
        }
    }
}

/// The length that suffices for a field, other than an item's bytes.
fn field_max(set: u64, field: u64) -> usize {
    match (set, field) {
        (ITEMS, 0) => ITEM_NAME_MAX,
        (DEFAULTS, 0) => EXTENSION_MAX,
        (DEFAULTS | OVERRIDES, 1) => MEDIA_TYPE_MAX,
        (OVERRIDES | RELATIONSHIPS, 0) => PART_NAME_MAX,
        (RELATIONSHIPS, 1) => ID_MAX,
        (RELATIONSHIPS, 2 | 4) => IRI_MAX,
        (RELATIONSHIPS, 3) => 1,
        _ => 0,
    }
}

/// Bytes as text. Where they are none, which calls never make, characters are
/// replaced.
pub(super) fn lossy(bytes: Vec<u8>) -> String {
    match String::from_utf8(bytes) {
        Ok(text) => text,
        Err(error) => String::from_utf8_lossy(error.as_bytes()).into_owned(),
    }
}

/// Entries of a package in the order of their keys, each read when it is
/// asked for: [`Items`](super::Items), [`Defaults`](super::Defaults),
/// [`Overrides`](super::Overrides) and [`Relationships`](super::Relationships).
pub struct Entries<'a, E> {
    package: &'a Package,
    positions: Range<usize>,
    read: fn(&'a Package, usize) -> E,
}

impl<'a, E> Entries<'a, E> {
    pub(super) fn new(
        package: &'a Package,
        positions: Range<usize>,
        read: fn(&'a Package, usize) -> E,
    ) -> Entries<'a, E> {
        Entries {
            package,
            positions,
            read,
        }
    }

    /// Those at these positions alone.
    pub(super) fn within(self, positions: Range<usize>) -> Entries<'a, E> {
        Entries { positions, ..self }
    }
}

impl<E> Clone for Entries<'_, E> {
    fn clone(&self) -> Self {
        Entries::new(self.package, self.positions.clone(), self.read)
    }
}

/// Shows the positions of the entries that are still to come.
impl<E> fmt::Debug for Entries<'_, E> {
    fn fmt(&self, f: &mut fmt::Formatter<'_>) -> fmt::Result {
        f.debug_struct("Entries")
            .field("positions", &self.positions)
            .finish_non_exhaustive()
    }
}

impl<E> Iterator for Entries<'_, E> {
    type Item = E;

    fn next(&mut self) -> Option<E> {
        self.nth(0)
    }

    fn nth(&mut self, count: usize) -> Option<E> {
        let position = self.positions.nth(count)?;
        Some((self.read)(self.package, position))
    }

    fn size_hint(&self) -> (usize, Option<usize>) {
        self.positions.size_hint()
    }
}

impl<E> DoubleEndedIterator for Entries<'_, E> {
    fn next_back(&mut self) -> Option<E> {
        let position = self.positions.next_back()?;
        Some((self.read)(self.package, position))
    }
}

impl<E> ExactSizeIterator for Entries<'_, E> {}

impl<E> FusedIterator for Entries<'_, E> {}
