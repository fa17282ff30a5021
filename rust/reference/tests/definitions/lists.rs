//! The definitions, on plain lists.

use reference::names::{
    compare_folded, extension, fold, is_derivable, is_equivalent, take_apart, ItemName, Piece,
};
use reference::Refusal;

/// A name or an extension, and the bytes or the media type.
pub type Entry = (Vec<u8>, Vec<u8>);

#[derive(Default)]
pub struct Lists {
    pub capacity: usize,
    pub items: Vec<Entry>,
    pub defaults: Vec<Entry>,
    pub overrides: Vec<Entry>,
}

fn apart(name: &[u8]) -> ItemName<'_> {
    take_apart(name).expect("an item name")
}

/// Whether two items of one group can't both be there because one is taken.
fn is_taken(new: Option<Piece>, held: Option<Piece>) -> bool {
    new.map(|piece| piece.number) == held.map(|piece| piece.number)
}

/// Whether two items of one group disagree.
fn disagree(new: Option<Piece>, held: Option<Piece>) -> bool {
    match (new, held) {
        (None, None) => false,
        (None, Some(_)) | (Some(_), None) => true,
        (Some(new), Some(held)) => {
            let second_last = new.last && held.last;
            let above_the_last = held.last && new.number > held.number;
            let below_a_held = new.last && new.number < held.number;
            second_last || above_the_last || below_a_held
        }
    }
}

impl Lists {
    pub fn charge(&self) -> usize {
        let all = [&self.items, &self.defaults, &self.overrides];
        let entries = all.into_iter().flatten();
        entries.map(|(a, b)| a.len() + b.len()).sum()
    }

    fn fits(&self, held: usize, most: usize, a: &[u8], b: &[u8]) -> Result<(), Refusal> {
        let full = held == most || self.charge() + a.len() + b.len() > self.capacity;
        if full {
            Err(Refusal::Full)
        } else {
            Ok(())
        }
    }

    /// The marks of the items whose prefixes are equivalent to `prefix`.
    fn marks(&self, prefix: &[u8]) -> Vec<Option<Piece>> {
        let items = self.items.iter().map(|(name, _)| apart(name));
        let group = items.filter(|item| is_equivalent(item.prefix, prefix));
        group.map(|item| item.piece).collect()
    }

    pub fn put(&mut self, name: &[u8], bytes: &[u8]) -> Result<(), Refusal> {
        let new = apart(name);
        let marks = self.marks(new.prefix);
        if marks.iter().any(|&held| is_taken(new.piece, held)) {
            return Err(Refusal::Taken);
        }
        if marks.iter().any(|&held| disagree(new.piece, held)) {
            return Err(Refusal::PiecesDisagree);
        }
        let mut prefixes = self.items.iter().map(|(name, _)| apart(name).prefix);
        if prefixes.any(|held| is_derivable(held, new.prefix) || is_derivable(new.prefix, held)) {
            return Err(Refusal::Derivable);
        }
        self.fits(self.items.len(), 256, name, bytes)?;
        self.items.push((name.to_vec(), bytes.to_vec()));
        Ok(())
    }

    pub fn index(&self, name: &[u8]) -> Result<usize, Refusal> {
        let asked = apart(name);
        let found = self.items.iter().position(|(name, _)| {
            let held = apart(name);
            is_equivalent(held.prefix, asked.prefix) && held.piece == asked.piece
        });
        found.ok_or(Refusal::NotHeld)
    }

    /// The spelling and the content of a part.
    pub fn part(&self, name: &[u8]) -> Result<(&[u8], Vec<u8>), Refusal> {
        let group = self.items.iter();
        let group = group.filter(|(held, _)| is_equivalent(apart(held).prefix, name));
        let mut group: Vec<_> = group.collect();
        group.sort_by_key(|(held, _)| apart(held).piece.map(|piece| piece.number));
        let marks = group.iter().map(|(held, _)| apart(held).piece);
        let is_part = match marks.clone().next_back() {
            None => false,
            Some(None) => group.len() == 1,
            Some(Some(last)) => {
                let numbers = marks.map(|mark| mark.map_or(0, |piece| piece.number));
                last.last && numbers.eq(0..=last.number)
            }
        };
        if !is_part {
            return Err(Refusal::NotHeld);
        }
        let content = group.iter().flat_map(|(_, bytes)| bytes.clone());
        Ok((apart(&group[0].0).prefix, content.collect()))
    }

    /// The spellings of all parts in folded order.
    pub fn parts(&self) -> Vec<&[u8]> {
        let prefixes = self.items.iter().map(|(name, _)| apart(name).prefix);
        let parts = prefixes.filter_map(|prefix| Some(self.part(prefix).ok()?.0));
        let mut parts: Vec<_> = parts.collect();
        parts.sort_by(|a, b| compare_folded(a, b));
        parts.dedup();
        parts
    }

    /// The entry that a part's type comes from: 2 and an Override, 1 and a
    /// Default, or 0 and none.
    fn entry(&self, name: &[u8]) -> Result<(u64, Option<&Entry>), Refusal> {
        self.part(name)?;
        let named = |held: &&Entry| is_equivalent(&held.0, name);
        if let Some(held) = self.overrides.iter().find(named) {
            return Ok((2, Some(held)));
        }
        let extended = |held: &&Entry| extension(name).is_some_and(|e| is_equivalent(&held.0, e));
        let held = self.defaults.iter().find(extended);
        Ok((u64::from(held.is_some()), held))
    }

    pub fn media_type(&self, name: &[u8]) -> Result<Vec<u8>, Refusal> {
        let (_, held) = self.entry(name)?;
        let media_type = held.map(|(_, media_type)| media_type.clone());
        media_type.ok_or(Refusal::NoMediaType)
    }

    /// Which entry it is, and its key.
    pub fn type_origin(&self, name: &[u8]) -> Result<(u64, Vec<u8>), Refusal> {
        let (kind, held) = self.entry(name)?;
        let key = held.map(|(key, _)| key.clone());
        Ok((kind, key.unwrap_or_default()))
    }

    pub fn put_default(&mut self, extension: &[u8], media_type: &[u8]) -> Result<(), Refusal> {
        if self
            .defaults
            .iter()
            .any(|(held, _)| fold(held) == fold(extension))
        {
            return Err(Refusal::Taken);
        }
        self.fits(self.defaults.len(), 64, extension, media_type)?;
        self.defaults
            .push((extension.to_vec(), media_type.to_vec()));
        Ok(())
    }

    pub fn put_override(&mut self, name: &[u8], media_type: &[u8]) -> Result<(), Refusal> {
        if self
            .overrides
            .iter()
            .any(|(held, _)| fold(held) == fold(name))
        {
            return Err(Refusal::Taken);
        }
        self.fits(self.overrides.len(), 64, name, media_type)?;
        self.overrides.push((name.to_vec(), media_type.to_vec()));
        Ok(())
    }

    /// Cuts a whole part: the quotient and the remainder.
    pub fn cut(&mut self, name: &[u8], count: u64) -> Result<(u64, u64), Refusal> {
        let (_, content) = self.part(name)?;
        let whole = self.index(name).map_err(|_| Refusal::WrongForm)?;
        if !(1..=256).contains(&count) {
            return Err(Refusal::BadPieceCount);
        }
        let count = count as usize;
        let (quotient, remainder) = (content.len() / count, content.len() % count);
        let mut after = self.items.clone();
        let (spelling, _) = after.remove(whole);
        // so many bytes lie before piece k
        let before = |k: usize| k * quotient + k.min(remainder);
        for k in 0..count {
            let mark = if k + 1 < count { "" } else { ".last" };
            let suffix = format!("/[{k}]{mark}.piece").into_bytes();
            let bytes = content[before(k)..before(k + 1)].to_vec();
            after.push(([&spelling[..], &suffix].concat(), bytes));
        }
        let before = std::mem::replace(&mut self.items, after);
        if self.items.len() > 256 || self.charge() > self.capacity {
            self.items = before;
            return Err(Refusal::Full);
        }
        Ok((quotient as u64, remainder as u64))
    }

    /// Joins the pieces of a part.
    pub fn join(&mut self, name: &[u8]) -> Result<(), Refusal> {
        let (spelling, content) = self.part(name)?;
        let whole = (spelling.to_vec(), content);
        if self.marks(name).contains(&None) {
            return Err(Refusal::WrongForm);
        }
        let apart = |held: &[u8]| !is_equivalent(apart(held).prefix, name);
        self.items.retain(|(held, _)| apart(held));
        self.items.push(whole);
        Ok(())
    }
}
