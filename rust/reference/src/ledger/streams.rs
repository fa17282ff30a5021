//! The calls that read streams: all entries are added, or none.

use super::Ledger;
use crate::names::check_source;
use crate::streams::{self, RelationshipEntry, TypesEntry, TOO_DEEP};
use crate::Refusal;

impl Ledger {
    /// Adds the entries of a types stream.
    pub fn read_types(&mut self, stream: &[u8]) -> Result<(), Refusal> {
        let entries = streams::read_types(stream).map_err(refusal)?;
        self.put_all(&entries, Ledger::put_typed, Ledger::drop_typed)
    }

    /// Adds the entries of a source's Relationships part. They take the source
    /// as it is spelled here.
    pub fn read_relationships(&mut self, source: &[u8], stream: &[u8]) -> Result<(), Refusal> {
        check_source(source)?;
        let entries = streams::read_relationships(stream).map_err(refusal)?;
        let put = |ledger: &mut Ledger, entry: &RelationshipEntry| {
            ledger.put_relationship(source, &entry.id, &entry.kind, entry.mode, &entry.target)
        };
        let drop = |ledger: &mut Ledger, entry: &RelationshipEntry| {
            ledger.drop_relationship(source, &entry.id)
        };
        self.put_all(&entries, put, drop)
    }

    /// Puts all entries in their order. If one is refused, those before it are
    /// dropped again.
    fn put_all<E>(
        &mut self,
        entries: &[E],
        put: impl Fn(&mut Ledger, &E) -> Result<(), Refusal>,
        drop: impl Fn(&mut Ledger, &E) -> Result<(), Refusal>,
    ) -> Result<(), Refusal> {
        for (count, entry) in entries.iter().enumerate() {
            if let Err(refusal) = put(self, entry) {
                for entry in &entries[..count] {
                    let dropped = drop(self, entry);
                    debug_assert_eq!(dropped, Ok(()));
                }
                return Err(refusal);
            }
        }
        Ok(())
    }

    fn put_typed(&mut self, entry: &TypesEntry) -> Result<(), Refusal> {
        match entry {
            TypesEntry::Default {
                extension,
                media_type,
            } => self.put_default(extension, media_type),
            TypesEntry::Override { name, media_type } => self.put_override(name, media_type),
        }
    }

    fn drop_typed(&mut self, entry: &TypesEntry) -> Result<(), Refusal> {
        match entry {
            TypesEntry::Default { extension, .. } => self.drop_default(extension),
            TypesEntry::Override { name, .. } => self.drop_override(name),
        }
    }
}

/// The refusal of a stream as a whole, by its number.
fn refusal(number: u8) -> Refusal {
    if number == TOO_DEEP {
        Refusal::TooDeep
    } else {
        Refusal::MalformedStream
    }
}
