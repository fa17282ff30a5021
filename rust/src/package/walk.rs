//! The parts of a package, and the groups of pieces that are none yet.

use super::entries::{lossy, ITEMS};
use super::{Package, Part};
use crate::names::is_equivalent;
use crate::Refusal;
use alloc::string::String;
use alloc::vec::Vec;
use core::fmt;
use core::iter::FusedIterator;
use core::ops::Range;

impl Package {
    /// All parts, by their folded names. It goes through the items once.
    ///
    /// # Errors
    ///
    /// [`Refusal::NotAPackage`].
    ///
    /// ```
    /// use zombirels::package::PackageBuf;
    /// let mut slide = PackageBuf::start(100)?;
    /// slide.put_item("/t3/[1].last.piece", "le")?;
    /// slide.put_item("/T3/[0].piece", "ti")?;
    /// slide.put_item("/Index", "1 tile")?;
    /// slide.put_item("/t4/[0].piece", "ti")?;
    ///
    /// let parts = slide.parts()?;
    /// assert_eq!(parts.len(), 2);
    /// let shown: Vec<String> = parts.map(|part| format!("{part}: {}", part.len())).collect();
    /// assert_eq!(shown, ["/Index: 6", "/T3: 4"]);
    /// # Ok::<(), zombirels::Refusal>(())
    /// ```
    pub fn parts(&self) -> Result<Parts<'_>, Refusal> {
        Ok(Parts {
            left: self.totals()?.parts,
            groups: self.groups()?,
        })
    }

    /// The names of the parts to be whose pieces are not all there, by their
    /// foldings, each in the spelling of its first piece.
    ///
    /// # Errors
    ///
    /// [`Refusal::NotAPackage`].
    ///
    /// ```
    /// use zombirels::package::PackageBuf;
    /// let mut slide = PackageBuf::start(100)?;
    /// slide.put_item("/T4/[1].last.piece", "le")?;
    /// slide.put_item("/t3", "tile")?;
    /// assert_eq!(slide.unfinished()?.collect::<Vec<_>>(), ["/T4"]);
    /// slide.put_item("/t4/[0].piece", "ti")?;
    /// assert_eq!(slide.unfinished()?.count(), 0);
    /// # Ok::<(), zombirels::Refusal>(())
    /// ```
    pub fn unfinished(&self) -> Result<Unfinished<'_>, Refusal> {
        let groups = self.groups()?;
        Ok(Unfinished { groups })
    }

    fn groups(&self) -> Result<Groups<'_>, Refusal> {
        Ok(Groups {
            package: self,
            positions: 0..self.count(ITEMS)?,
            next: None,
        })
    }
}

/// The groups of items with equivalent prefixes, which stand side by side:
/// the first one's prefix, and the positions.
#[derive(Clone)]
struct Groups<'a> {
    package: &'a Package,
    /// The items that were not read yet.
    positions: Range<usize>,
    /// The prefix of the one before these, if it belongs to the next group.
    next: Option<Vec<u8>>,
}

impl Groups<'_> {
    /// The prefix of the next item.
    fn prefix(&mut self) -> Option<Vec<u8>> {
        let position = self.positions.next()?;
        Some(self.package.prefix(position))
    }
}

impl Iterator for Groups<'_> {
    type Item = (Vec<u8>, Range<usize>);

    fn next(&mut self) -> Option<(Vec<u8>, Range<usize>)> {
        let prefix = self.next.take().or_else(|| self.prefix())?;
        let start = self.positions.start - 1;
        while let Some(other) = self.prefix() {
            if !is_equivalent(&prefix, &other) {
                self.next = Some(other);
                break;
            }
        }
        let end = self.positions.start - usize::from(self.next.is_some());
        Some((prefix, start..end))
    }
}

/// What [`Package::parts`] answers.
#[derive(Clone)]
pub struct Parts<'a> {
    groups: Groups<'a>,
    left: usize,
}

impl<'a> Iterator for Parts<'a> {
    type Item = Part<'a>;

    fn next(&mut self) -> Option<Part<'a>> {
        self.left = self.left.checked_sub(1)?;
        let package = self.groups.package;
        let is_part = |(name, _): &(Vec<u8>, _)| package.read_part(name, 0, &mut []).is_ok();
        let (name, positions) = self.groups.find(is_part).unwrap_or_default();
        Some(Part::new(package, name, positions))
    }

    fn size_hint(&self) -> (usize, Option<usize>) {
        (self.left, Some(self.left))
    }
}

impl ExactSizeIterator for Parts<'_> {}

impl FusedIterator for Parts<'_> {}

/// Shows how many parts are still to come.
impl fmt::Debug for Parts<'_> {
    fn fmt(&self, f: &mut fmt::Formatter<'_>) -> fmt::Result {
        f.debug_struct("Parts")
            .field("left", &self.left)
            .finish_non_exhaustive()
    }
}

/// What [`Package::unfinished`] answers.
#[derive(Clone)]
pub struct Unfinished<'a> {
    groups: Groups<'a>,
}

impl Iterator for Unfinished<'_> {
    type Item = String;

    fn next(&mut self) -> Option<String> {
        let package = self.groups.package;
        let lacks =
            |(name, _): &(Vec<u8>, _)| package.read_part(name, 0, &mut []) == Err(Refusal::NotHeld);
        self.groups.find(lacks).map(|(name, _)| lossy(name))
    }
}

impl FusedIterator for Unfinished<'_> {}

/// Shows the positions of the items that are still to be looked at.
impl fmt::Debug for Unfinished<'_> {
    fn fmt(&self, f: &mut fmt::Formatter<'_>) -> fmt::Result {
        f.debug_struct("Unfinished")
            .field("positions", &self.groups.positions)
            .finish_non_exhaustive()
    }
}
