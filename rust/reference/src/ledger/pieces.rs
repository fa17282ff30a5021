//! Cutting a whole part into pieces, and joining them again.

use super::group::{Group, Item};
use super::{Ledger, ITEMS_MAX};
use crate::names::{fold, Piece};
use crate::Refusal;

/// Into how many pieces a part can be cut.
const PIECES_MAX: u64 = 256;

/// What `cut_part` answers: L = n * size + longer, and longer is below n.
#[derive(Clone, Copy, Debug, PartialEq, Eq)]
pub struct Cut {
    /// The bytes of a piece, but for the first ones.
    pub size: u64,
    /// How many pieces, the first ones, have a byte more.
    pub longer: u64,
}

impl Ledger {
    /// Cuts a whole part into `count` pieces.
    pub fn cut_part(&mut self, name: &[u8], count: u64) -> Result<Cut, Refusal> {
        let part = self.part(name)?;
        let whole = part.whole().ok_or(Refusal::WrongForm)?;
        if count == 0 || count > PIECES_MAX {
            return Err(Refusal::BadPieceCount);
        }
        let length = whole.bytes.len() as u64;
        let cut = Cut {
            size: length / count,
            longer: length % count,
        };
        let pieces = Group::of(pieces_of(whole, count, cut));
        let (items, charge) = self.sums_after(part, &pieces);
        if items > ITEMS_MAX || charge > self.capacity {
            return Err(Refusal::Full);
        }
        (self.items, self.charge) = (items, charge);
        self.groups.insert(fold(name), pieces);
        Ok(cut)
    }

    /// Joins the pieces of a part to one whole item.
    pub fn join_part(&mut self, name: &[u8]) -> Result<(), Refusal> {
        let part = self.part(name)?;
        if part.whole().is_some() {
            return Err(Refusal::WrongForm);
        }
        let whole = Group::of([Item {
            name: part.spelling().to_vec(),
            bytes: part.content(),
            piece: None,
        }]);
        (self.items, self.charge) = self.sums_after(part, &whole);
        self.groups.insert(fold(name), whole);
        Ok(())
    }

    /// How many items there are, and their charge with that of all others, once
    /// `new` stands in the place of `old`.
    fn sums_after(&self, old: &Group, new: &Group) -> (usize, u64) {
        let items = self.items - old.items.len() + new.items.len();
        (items, self.charge - old.charge() + new.charge())
    }
}

/// The pieces of a whole item, in their order.
fn pieces_of(whole: &Item, count: u64, cut: Cut) -> Vec<Item> {
    let mut rest = &whole.bytes[..];
    let mut pieces = Vec::new();
    for number in 0..count {
        let size = cut.size + u64::from(number < cut.longer);
        let (bytes, behind) = rest.split_at(size as usize);
        rest = behind;
        let last = number == count - 1;
        let mark = if last { ".last.piece" } else { ".piece" };
        let suffix = format!("/[{number}]{mark}");
        pieces.push(Item {
            name: [&whole.name, suffix.as_bytes()].concat(),
            bytes: bytes.to_vec(),
            piece: Some(Piece {
                number: number as u16,
                last,
            }),
        });
    }
    pieces
}
