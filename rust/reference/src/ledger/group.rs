//! Items, and the groups of those that make one part.

use super::charge;
use crate::names::Piece;
use crate::Refusal;
use std::collections::BTreeMap;

/// An item, and the mark of a piece.
#[derive(Clone)]
pub(super) struct Item {
    pub(super) name: Vec<u8>,
    pub(super) bytes: Vec<u8>,
    pub(super) piece: Option<Piece>,
}

impl Item {
    /// The spelling of the prefix. The suffix begins at the last slash.
    fn prefix(&self) -> &[u8] {
        match self.piece {
            None => &self.name,
            Some(_) => {
                let slash = self.name.iter().rposition(|&byte| byte == b'/');
                &self.name[..slash.unwrap_or(0)]
            }
        }
    }

    pub(super) fn charge(&self) -> u64 {
        charge(&[&self.name, &self.bytes])
    }

    pub(super) fn number(&self) -> u16 {
        self.piece.map_or(0, |piece| piece.number)
    }

    /// Whether nothing may follow: a whole item, or the last piece.
    fn is_last(&self) -> bool {
        self.piece.is_none_or(|piece| piece.last)
    }
}

/// The items with equivalent prefixes, by number; a whole item stands alone
/// as number 0. A group is never empty.
#[derive(Clone, Default)]
pub(super) struct Group {
    pub(super) items: BTreeMap<u16, Item>,
}

impl Group {
    /// A group of these items, whose numbers differ.
    pub(super) fn of(items: impl IntoIterator<Item = Item>) -> Group {
        let items = items.into_iter().map(|item| (item.number(), item));
        Group {
            items: items.collect(),
        }
    }

    /// Whether `piece` (or the whole item) may join; 10 or 12 if not.
    pub(super) fn check(&self, piece: Option<Piece>) -> Result<(), Refusal> {
        let Some((&highest, end)) = self.items.last_key_value() else {
            return Ok(());
        };
        match (end.piece, piece) {
            (None, None) => Err(Refusal::Taken),
            (None, Some(_)) | (Some(_), None) => Err(Refusal::PiecesDisagree),
            (Some(_), Some(new)) if self.items.contains_key(&new.number) => Err(Refusal::Taken),
            // A held last piece has the highest number.
            (Some(held), Some(new)) if held.last && (new.last || new.number > highest) => {
                Err(Refusal::PiecesDisagree)
            }
            (Some(_), Some(new)) if new.last && new.number < highest => {
                Err(Refusal::PiecesDisagree)
            }
            _ => Ok(()),
        }
    }

    /// The item with that very mark.
    pub(super) fn find(&self, piece: Option<Piece>) -> Option<&Item> {
        let item = self.items.get(&piece.map_or(0, |piece| piece.number))?;
        (item.piece == piece).then_some(item)
    }

    /// Numbers 0 to n are all there exactly if there are n + 1 of them.
    pub(super) fn is_part(&self) -> bool {
        self.items.last_key_value().is_some_and(|(&highest, item)| {
            item.is_last() && self.items.len() == usize::from(highest) + 1
        })
    }

    /// The item of a group that is one whole item.
    pub(super) fn whole(&self) -> Option<&Item> {
        self.items.values().find(|item| item.piece.is_none())
    }

    pub(super) fn charge(&self) -> u64 {
        self.items.values().map(Item::charge).sum()
    }

    /// The spelling of a part.
    pub(super) fn spelling(&self) -> &[u8] {
        self.items.get(&0).map_or(b"", Item::prefix)
    }

    pub(super) fn content_length(&self) -> usize {
        self.items.values().map(|item| item.bytes.len()).sum()
    }

    pub(super) fn content(&self) -> Vec<u8> {
        let pieces = self.items.values().map(|item| &item.bytes[..]);
        pieces.collect::<Vec<_>>().concat()
    }

    /// Copies the content from `offset` on, as much as `out` takes.
    pub(super) fn read(&self, offset: u64, out: &mut [u8]) -> usize {
        let mut skip = offset;
        let mut written = 0;
        for item in self.items.values() {
            let start = skip.min(item.bytes.len() as u64) as usize;
            skip -= start as u64;
            let rest = &item.bytes[start..];
            let length = rest.len().min(out.len() - written);
            out[written..written + length].copy_from_slice(&rest[..length]);
            written += length;
        }
        written
    }
}
