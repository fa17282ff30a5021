//! A part and what belongs to it.

use super::entries::{lossy, ITEMS};
use super::listing::first;
use super::{Items, Package, Relationships, TypeOrigin};
use crate::names::{compare_folded, take_apart};
use crate::Refusal;
use alloc::string::String;
use alloc::vec::Vec;
use core::fmt;
use core::ops::Range;

impl Package {
    /// The part of that name, in any letter case.
    ///
    /// # Errors
    ///
    /// As [`Package::read_part`].
    ///
    /// ```
    /// use zombirels::package::PackageBuf;
    /// use zombirels::Refusal;
    /// let mut slide = PackageBuf::start(100)?;
    /// slide.put_item("/T3", "tile")?;
    /// let part = slide.part("/t3")?;
    /// assert_eq!((part.name(), part.len()), ("/T3", 4));
    /// assert_eq!(slide.part("/t4").err(), Some(Refusal::NotHeld));
    /// # Ok::<(), Refusal>(())
    /// ```
    pub fn part(&self, name: impl AsRef<[u8]>) -> Result<Part<'_>, Refusal> {
        self.named(name.as_ref())
    }

    /// Its items stand side by side, and it is spelled as the first one.
    fn named(&self, name: &[u8]) -> Result<Part<'_>, Refusal> {
        self.read_part(name, 0, &mut [])?;
        let count = self.count(ITEMS)?;
        let order = |position| compare_folded(self.prefix(position), name);
        let from = first(0..count, |position| order(position).is_lt());
        let to = first(from..count, |position| order(position).is_le());
        let spelled = match from < to {
            true => self.prefix(from),
            false => name.to_vec(),
        };
        Ok(Part::new(self, spelled, from..to))
    }

    /// The prefix of the item at a position.
    pub(super) fn prefix(&self, position: usize) -> Vec<u8> {
        let mut name = self.field(ITEMS, position, 0);
        let prefix = take_apart(&name).map(|item| item.prefix.len());
        name.truncate(prefix.unwrap_or(name.len()));
        name
    }
}

/// A part of a package: [`Package::part`] answers one, [`Package::parts`] all.
/// As text it is its name.
///
/// Its calls are those of [`Package`] with its name. In bytes that no calls
/// made, where these may be refused, it has no content, no media type and no
/// relationships.
#[derive(Clone, Debug)]
pub struct Part<'a> {
    package: &'a Package,
    name: String,
    positions: Range<usize>,
}

impl<'a> Part<'a> {
    pub(super) fn new(package: &'a Package, name: Vec<u8>, positions: Range<usize>) -> Part<'a> {
        Part {
            package,
            name: lossy(name),
            positions,
        }
    }

    /// The part's name, in the spelling of its first item. It is this value's
    /// own: [`Part::into_name`] hands it over.
    #[must_use]
    pub fn name(&self) -> &str {
        &self.name
    }

    /// The part's name.
    ///
    /// ```
    /// use zombirels::package::{PackageBuf, Part};
    /// let mut slide = PackageBuf::start(100)?;
    /// slide.put_item("/t3", "tile")?;
    /// let names: Vec<String> = slide.parts()?.map(Part::into_name).collect();
    /// assert_eq!(names, ["/t3"]);
    /// # Ok::<(), zombirels::Refusal>(())
    /// ```
    #[must_use]
    pub fn into_name(self) -> String {
        self.name
    }

    /// The length of the content.
    #[must_use]
    pub fn len(&self) -> usize {
        self.package.part_len(&self.name).unwrap_or_default()
    }

    /// Whether the content has no bytes.
    #[must_use]
    pub fn is_empty(&self) -> bool {
        self.len() == 0
    }

    /// The whole content.
    #[must_use]
    pub fn to_vec(&self) -> Vec<u8> {
        let content = self.package.read_part_to_vec(&self.name);
        content.unwrap_or_default()
    }

    /// A reader of the content. It comes with the feature `std`.
    #[cfg(feature = "std")]
    #[must_use]
    pub fn reader(&self) -> super::PartReader<'a> {
        super::PartReader::new(self.package, self.name.as_bytes(), self.len())
    }

    /// The items that make the part: a whole one, or its pieces.
    ///
    /// ```
    /// use zombirels::package::PackageBuf;
    /// let mut slide = PackageBuf::start(100)?;
    /// slide.put_item("/t3", "tiles")?;
    /// slide.cut_part("/t3", 2)?;
    /// let part = slide.part("/t3")?;
    /// let pieces: Vec<&[u8]> = part.items().map(|item| item.bytes).collect();
    /// assert_eq!(pieces, [&b"til"[..], b"es"]);
    /// # Ok::<(), zombirels::Refusal>(())
    /// ```
    #[must_use]
    pub fn items(&self) -> Items<'a> {
        self.package.items_at(self.positions.clone())
    }

    /// The media type, if it has one: there the call
    /// [`Package::media_type_to_string`] isn't refused by
    /// [`Refusal::NoMediaType`].
    ///
    /// ```
    /// use zombirels::package::PackageBuf;
    /// let mut slide = PackageBuf::start(100)?;
    /// slide.put_item("/t3.tiff", "tile")?;
    /// assert_eq!(slide.part("/t3.tiff")?.media_type(), None);
    /// slide.put_default("tiff", "image/tiff")?;
    /// let media_type = slide.part("/t3.tiff")?.media_type();
    /// assert_eq!(media_type.as_deref(), Some("image/tiff"));
    /// # Ok::<(), zombirels::Refusal>(())
    /// ```
    #[must_use]
    pub fn media_type(&self) -> Option<String> {
        self.package.media_type_to_string(&self.name).ok()
    }

    /// The entry that the media type comes from.
    ///
    /// ```
    /// use zombirels::package::PackageBuf;
    /// let mut slide = PackageBuf::start(100)?;
    /// slide.put_item("/t3.tiff", "tile")?;
    /// slide.put_default("TIFF", "image/tiff")?;
    /// assert_eq!(slide.part("/t3.tiff")?.type_origin().to_string(), "Default TIFF");
    /// # Ok::<(), zombirels::Refusal>(())
    /// ```
    #[must_use]
    pub fn type_origin(&self) -> TypeOrigin<String> {
        let origin = self.package.type_origin_to_string(&self.name);
        origin.unwrap_or(TypeOrigin::Neither)
    }

    /// The relationships from this part.
    ///
    /// ```
    /// use zombirels::package::{Mode, PackageBuf};
    /// let mut slide = PackageBuf::start(100)?;
    /// slide.put_item("/t3", "tile")?;
    /// slide.put_relationship("/T3", "m1", "a:mask", Mode::Internal, "mask")?;
    /// assert_eq!(slide.part("/t3")?.relationships().len(), 1);
    /// # Ok::<(), zombirels::Refusal>(())
    /// ```
    #[must_use]
    pub fn relationships(&self) -> Relationships<'a> {
        let relationships = self.package.relationships_of(&self.name);
        relationships.unwrap_or_else(|_| self.package.no_relationships())
    }
}

impl fmt::Display for Part<'_> {
    fn fmt(&self, f: &mut fmt::Formatter<'_>) -> fmt::Result {
        f.pad(&self.name)
    }
}
