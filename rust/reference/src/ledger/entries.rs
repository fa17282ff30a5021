//! The entry at a position of a set. It is no call of document 01, and follows
//! the rule in `include/opc.h`.

use super::Ledger;
use crate::names::{fold, take_apart};
use crate::Refusal;

const ITEMS: u64 = 0;
const DEFAULTS: u64 = 1;
const OVERRIDES: u64 = 2;
const RELATIONSHIPS: u64 = 3;

/// The entries of a set in the order of their keys.
pub struct Entries<'a> {
    /// How many fields each of them has.
    width: usize,
    rows: Vec<Vec<&'a [u8]>>,
}

impl<'a> Entries<'a> {
    /// Puts rows in the order of the keys that their fields have.
    fn sorted<K: Ord>(
        width: usize,
        rows: impl Iterator<Item = Vec<&'a [u8]>>,
        key: impl Fn(&[&'a [u8]]) -> K,
    ) -> Entries<'a> {
        let mut rows: Vec<_> = rows.collect();
        rows.sort_by_cached_key(|row| key(row));
        Entries { width, rows }
    }

    /// How many entries the set has.
    pub fn count(&self) -> usize {
        self.rows.len()
    }

    /// How many fields each of them has.
    pub fn width(&self) -> usize {
        self.width
    }

    /// A field of the entry at a position: 8 if there is no such field, 13 past
    /// the last entry.
    pub fn at(&self, position: u64, field: u64) -> Result<&'a [u8], Refusal> {
        if field >= self.width as u64 {
            return Err(Refusal::BadRelationshipField);
        }
        let position = usize::try_from(position).unwrap_or(usize::MAX);
        let row = self.rows.get(position).ok_or(Refusal::NotHeld)?;
        Ok(row[field as usize])
    }
}

impl Ledger {
    /// A field of the entry at a position of a set, and how many entries the
    /// set has.
    pub fn entry_at(
        &self,
        set: u64,
        position: u64,
        field: u64,
    ) -> Result<(Vec<u8>, usize), Refusal> {
        let entries = self.entries(set)?;
        let bytes = entries.at(position, field)?;
        Ok((bytes.to_vec(), entries.count()))
    }

    /// The entries of a set, sorted by keys that are made of their fields: how
    /// the ledger keeps them has no part in it. 8 if there is no such set.
    pub fn entries(&self, set: u64) -> Result<Entries<'_>, Refusal> {
        let pair = |(first, second)| vec![first, second];
        let folded = |row: &[&[u8]]| fold(row[0]);
        match set {
            ITEMS => Ok(Entries::sorted(2, self.items().map(pair), item_key)),
            DEFAULTS => Ok(Entries::sorted(2, self.defaults().map(pair), folded)),
            OVERRIDES => Ok(Entries::sorted(2, self.overrides().map(pair), folded)),
            RELATIONSHIPS => {
                let rows = self.relationships().map(|fields| fields.to_vec());
                let key = |row: &[&[u8]]| (fold(row[0]), row[1].to_vec());
                Ok(Entries::sorted(5, rows, key))
            }
            _ => Err(Refusal::BadRelationshipField),
        }
    }
}

/// An item's folded prefix, then none for a whole item, else the number of the
/// piece: none comes first.
fn item_key(row: &[&[u8]]) -> (Vec<u8>, Option<u16>) {
    let item = take_apart(row[0]).expect("a held item has a name");
    (fold(item.prefix), item.piece.map(|piece| piece.number))
}
