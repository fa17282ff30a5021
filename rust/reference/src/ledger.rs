//! The ledger: what a package must answer after any list of calls.

mod entries;
mod group;
mod pieces;
mod relationships;
mod streams;
mod types;

use crate::names::{fold, is_derivable, is_part_name, is_reserved, take_apart, ItemName};
use crate::{write_out, Refusal};
pub use entries::Entries;
use group::{Group, Item};
pub use pieces::Cut;
use relationships::Relationship;
use std::collections::BTreeMap;
pub use types::Origin;
use types::Types;

const CAPACITY_MAX: u64 = 1_000_000;
/// What the lent package has beside its capacity.
const OVERHEAD: u64 = 32_768;
const ITEMS_MAX: usize = 256;
const RELATIONSHIPS_MAX: usize = 256;

/// The bytes that the fields of an entry count.
fn charge(fields: &[&[u8]]) -> u64 {
    fields.iter().map(|field| field.len() as u64).sum()
}

/// What `totals` answers.
#[derive(Clone, Copy, Debug, PartialEq, Eq)]
pub struct Totals {
    pub items: u64,
    pub parts: u64,
    pub charge: u64,
}

/// What `resolve_relationship` answers.
#[derive(Clone, Copy, Debug, PartialEq, Eq)]
pub struct Resolved {
    pub length: usize,
    pub mode: u64,
    pub held: bool,
}

/// A part as the program `sheet` lists it.
pub struct Part<'a> {
    pub pieces: usize,
    pub bytes: usize,
    pub name: &'a [u8],
    pub media_type: Option<&'a [u8]>,
}

/// The state of one package. Keys are folded; entries keep their spelling.
#[derive(Clone, Default)]
pub struct Ledger {
    capacity: u64,
    charge: u64,
    items: usize,
    groups: BTreeMap<Vec<u8>, Group>,
    defaults: Types,
    overrides: Types,
    relationships: BTreeMap<(Vec<u8>, Vec<u8>), Relationship>,
}

impl Ledger {
    /// Empties all sets. `length` is the length of the lent package.
    pub fn start(&mut self, length: u64, capacity: u64) -> Result<(), Refusal> {
        if capacity > CAPACITY_MAX || length < capacity + OVERHEAD {
            return Err(Refusal::BadStart);
        }
        *self = Ledger {
            capacity,
            ..Ledger::default()
        };
        Ok(())
    }

    /// By how much the charge may still grow.
    pub fn room(&self) -> u64 {
        self.capacity - self.charge
    }

    /// Refuses an entry beyond `max` or beyond the capacity.
    fn check_room(&self, held: usize, max: usize, charge: u64) -> Result<(), Refusal> {
        if held >= max || self.charge + charge > self.capacity {
            Err(Refusal::Full)
        } else {
            Ok(())
        }
    }

    pub fn put_item(&mut self, name: &[u8], bytes: &[u8]) -> Result<(), Refusal> {
        let ItemName { prefix, piece } = take_apart_unreserved(name)?;
        let key = fold(prefix);
        match self.groups.get(&key) {
            Some(group) => group.check(piece)?,
            None => self.check_underived(&key)?,
        }
        let item = Item {
            name: name.to_vec(),
            bytes: bytes.to_vec(),
            piece,
        };
        self.check_room(self.items, ITEMS_MAX, item.charge())?;
        self.items += 1;
        self.charge += item.charge();
        let group = self.groups.entry(key).or_default();
        group.items.insert(item.number(), item);
        Ok(())
    }

    /// Refuses a new folded prefix that is derivable from a held one, or from
    /// which a held one is.
    fn check_underived(&self, key: &[u8]) -> Result<(), Refusal> {
        let mut slashes = key.iter().enumerate().skip(1).filter(|(_, &b)| b == b'/');
        if slashes.any(|(at, _)| self.groups.contains_key(&key[..at])) {
            return Err(Refusal::Derivable);
        }
        let below = [key, b"/"].concat();
        match self.groups.range(below..).next() {
            Some((held, _)) if is_derivable(held, key) => Err(Refusal::Derivable),
            _ => Ok(()),
        }
    }

    pub fn drop_item(&mut self, name: &[u8]) -> Result<(), Refusal> {
        let ItemName { prefix, piece } = take_apart_unreserved(name)?;
        let key = fold(prefix);
        let group = self.groups.get_mut(&key).ok_or(Refusal::NotHeld)?;
        let item = group.find(piece).ok_or(Refusal::NotHeld)?;
        self.charge -= item.charge();
        self.items -= 1;
        let number = item.number();
        group.items.remove(&number);
        if group.items.is_empty() {
            self.groups.remove(&key);
        }
        Ok(())
    }

    fn item(&self, name: &[u8]) -> Result<&Item, Refusal> {
        let ItemName { prefix, piece } = take_apart(name)?;
        let group = self.groups.get(&fold(prefix));
        group
            .and_then(|group| group.find(piece))
            .ok_or(Refusal::NotHeld)
    }

    /// The length of an item.
    pub fn find_item(&self, name: &[u8]) -> Result<usize, Refusal> {
        Ok(self.item(name)?.bytes.len())
    }

    /// The bytes of an item, none on refusal.
    pub fn view_item(&self, name: &[u8]) -> &[u8] {
        self.item(name).map_or(b"", |item| &item.bytes)
    }

    /// The names of all items, and their bytes.
    pub fn items(&self) -> impl Iterator<Item = (&[u8], &[u8])> {
        let items = self.groups.values().flat_map(|group| group.items.values());
        items.map(|item| (&item.name[..], &item.bytes[..]))
    }

    fn part(&self, name: &[u8]) -> Result<&Group, Refusal> {
        if !is_part_name(name) {
            return Err(Refusal::NotAPartName);
        }
        let group = self.groups.get(&fold(name));
        group
            .filter(|group| group.is_part())
            .ok_or(Refusal::NotHeld)
    }

    /// Copies a part's content from `offset` on, as much as `out` takes.
    pub fn read_part(&self, name: &[u8], offset: u64, out: &mut [u8]) -> Result<usize, Refusal> {
        Ok(self.part(name)?.read(offset, out))
    }

    /// Copies the spelling of the part at a position in folded order.
    pub fn part_at(&self, position: u64, out: &mut [u8]) -> Result<usize, Refusal> {
        let mut parts = self.groups.values().filter(|group| group.is_part());
        let position = usize::try_from(position).unwrap_or(usize::MAX);
        let part = parts.nth(position).ok_or(Refusal::NotHeld)?;
        write_out(out, part.spelling())
    }

    pub fn totals(&self) -> Totals {
        let parts = self.groups.values().filter(|group| group.is_part());
        Totals {
            items: self.items as u64,
            parts: parts.count() as u64,
            charge: self.charge,
        }
    }

    /// The parts in folded order.
    pub fn parts(&self) -> impl Iterator<Item = Part<'_>> {
        let parts = self.groups.values().filter(|group| group.is_part());
        parts.map(|group| Part {
            pieces: group.items.len(),
            bytes: group.content_length(),
            name: group.spelling(),
            media_type: self.type_of(group.spelling()),
        })
    }
}

/// Takes an item name apart and refuses a reserved prefix.
fn take_apart_unreserved(name: &[u8]) -> Result<ItemName<'_>, Refusal> {
    let item = take_apart(name)?;
    if is_reserved(item.prefix) {
        Err(Refusal::Reserved)
    } else {
        Ok(item)
    }
}

#[cfg(test)]
mod tests;
