//! What a package holds, set by set.

use super::entries::{lossy, Entries, DEFAULTS, ITEMS, OVERRIDES, RELATIONSHIPS};
use super::{Mode, Package};
use crate::iri::relationships_part;
use crate::names::compare_folded;
use crate::Refusal;
use alloc::string::String;
use core::ops::Range;

/// An item of a package.
#[derive(Clone, Debug, PartialEq, Eq, Hash)]
pub struct Item<'a> {
    /// The name as it was put: of a piece with its suffix.
    pub name: String,
    /// The bytes, where they lie in the package.
    pub bytes: &'a [u8],
}

/// A Default: the media type of an extension.
#[derive(Clone, Debug, PartialEq, Eq, Hash)]
pub struct DefaultEntry {
    /// The extension as it was put.
    pub extension: String,
    /// The media type as it was put.
    pub media_type: String,
}

/// An Override: the media type of one part name.
#[derive(Clone, Debug, PartialEq, Eq, Hash)]
pub struct OverrideEntry {
    /// The part name as it was put.
    pub name: String,
    /// The media type as it was put.
    pub media_type: String,
}

/// A relationship, its fields as they were put.
#[derive(Clone, Debug, PartialEq, Eq, Hash)]
pub struct Relationship {
    /// The source: a part name, or `/` for the package.
    pub source: String,
    /// The id, by which the source knows it.
    pub id: String,
    /// The type, an IRI with a scheme.
    pub kind: String,
    /// Where the target lies.
    pub mode: Mode,
    /// The target.
    pub target: String,
}

/// What [`Package::items`] answers.
pub type Items<'a> = Entries<'a, Item<'a>>;

/// What [`Package::defaults`] answers.
pub type Defaults<'a> = Entries<'a, DefaultEntry>;

/// What [`Package::overrides`] answers.
pub type Overrides<'a> = Entries<'a, OverrideEntry>;

/// What [`Package::relationships`] and [`Package::relationships_of`] answer.
pub type Relationships<'a> = Entries<'a, Relationship>;

impl Package {
    /// All items, by their folded prefixes; the pieces of one by their numbers.
    ///
    /// # Errors
    ///
    /// [`Refusal::NotAPackage`].
    ///
    /// ```
    /// use zombirels::package::PackageBuf;
    /// let mut slide = PackageBuf::start(100)?;
    /// slide.put_item("/t3/[0].piece", "ti")?;
    /// slide.put_item("/Index", "2 tiles")?;
    /// let items = slide.items()?;
    /// assert_eq!(items.len(), 2);
    /// let names: Vec<String> = items.map(|item| item.name).collect();
    /// assert_eq!(names, ["/Index", "/t3/[0].piece"]);
    /// # Ok::<(), zombirels::Refusal>(())
    /// ```
    pub fn items(&self) -> Result<Items<'_>, Refusal> {
        self.entries(ITEMS, read_item)
    }

    /// The items at these positions.
    pub(super) fn items_at(&self, positions: Range<usize>) -> Items<'_> {
        Entries::new(self, positions, read_item)
    }

    /// All Defaults, by their folded extensions.
    ///
    /// # Errors
    ///
    /// [`Refusal::NotAPackage`].
    ///
    /// ```
    /// use zombirels::package::PackageBuf;
    /// let mut slide = PackageBuf::start(100)?;
    /// slide.put_default("xml", "text/xml")?;
    /// slide.put_default("TIFF", "image/tiff")?;
    /// let extensions: Vec<String> = slide.defaults()?.map(|entry| entry.extension).collect();
    /// assert_eq!(extensions, ["TIFF", "xml"]);
    /// # Ok::<(), zombirels::Refusal>(())
    /// ```
    pub fn defaults(&self) -> Result<Defaults<'_>, Refusal> {
        self.entries(DEFAULTS, |package, position| DefaultEntry {
            extension: package.field_text(DEFAULTS, position, 0),
            media_type: package.field_text(DEFAULTS, position, 1),
        })
    }

    /// All Overrides, by their folded names.
    ///
    /// # Errors
    ///
    /// [`Refusal::NotAPackage`].
    ///
    /// ```
    /// use zombirels::package::PackageBuf;
    /// let mut slide = PackageBuf::start(100)?;
    /// slide.put_override("/t3.tiff", "image/tiff;page=2")?;
    /// for entry in slide.overrides()? {
    ///     assert_eq!(entry.name, "/t3.tiff");
    ///     assert_eq!(entry.media_type, "image/tiff;page=2");
    /// }
    /// # Ok::<(), zombirels::Refusal>(())
    /// ```
    pub fn overrides(&self) -> Result<Overrides<'_>, Refusal> {
        self.entries(OVERRIDES, |package, position| OverrideEntry {
            name: package.field_text(OVERRIDES, position, 0),
            media_type: package.field_text(OVERRIDES, position, 1),
        })
    }

    /// All relationships, by their folded sources, then by the bytes of their
    /// ids.
    ///
    /// # Errors
    ///
    /// [`Refusal::NotAPackage`].
    ///
    /// ```
    /// use zombirels::package::{Mode, PackageBuf};
    /// let mut slide = PackageBuf::start(100)?;
    /// slide.put_relationship("/t3", "m1", "a:mask", Mode::Internal, "mask")?;
    /// slide.put_relationship("/", "r1", "a:tile", Mode::Internal, "t3")?;
    /// let ids: Vec<String> = slide.relationships()?.map(|link| link.id).collect();
    /// assert_eq!(ids, ["r1", "m1"]);
    /// # Ok::<(), zombirels::Refusal>(())
    /// ```
    pub fn relationships(&self) -> Result<Relationships<'_>, Refusal> {
        self.entries(RELATIONSHIPS, read_relationship)
    }

    /// The relationships of a source, which is a part name or `/` for the
    /// package, by the bytes of their ids.
    ///
    /// # Errors
    ///
    /// [`Refusal::NotAPackage`]; [`Refusal::NotAPartName`] or
    /// [`Refusal::Reserved`] for the source.
    ///
    /// ```
    /// use zombirels::package::{Mode, PackageBuf};
    /// let mut slide = PackageBuf::start(200)?;
    /// slide.put_relationship("/t3", "m2", "a:page", Mode::External, "b:c")?;
    /// slide.put_relationship("/", "r1", "a:tile", Mode::Internal, "t3")?;
    /// slide.put_relationship("/T3", "m1", "a:mask", Mode::Internal, "mask")?;
    /// let links = slide.relationships_of("/t3")?;
    /// assert_eq!(links.len(), 2);
    /// let targets: Vec<String> = links.map(|link| link.target).collect();
    /// assert_eq!(targets, ["mask", "b:c"]);
    /// # Ok::<(), zombirels::Refusal>(())
    /// ```
    pub fn relationships_of(&self, source: impl AsRef<[u8]>) -> Result<Relationships<'_>, Refusal> {
        self.of_source(source.as_ref())
    }

    pub(super) fn no_relationships(&self) -> Relationships<'_> {
        Entries::new(self, 0..0, read_relationship)
    }

    fn of_source(&self, source: &[u8]) -> Result<Relationships<'_>, Refusal> {
        let all = self.relationships()?;
        match relationships_part(source, &mut []) {
            Ok(_) | Err(Refusal::OutputTooShort { .. }) => {}
            Err(refusal) => return Err(refusal),
        }
        // those of equivalent sources stand side by side
        let order = |position| compare_folded(self.field(RELATIONSHIPS, position, 0), source);
        let from = first(0..all.len(), |position| order(position).is_lt());
        let to = first(from..all.len(), |position| order(position).is_le());
        Ok(all.within(from..to))
    }
}

fn read_item(package: &Package, position: usize) -> Item<'_> {
    let name = package.field(ITEMS, position, 0);
    Item {
        bytes: package.view_item(&name).unwrap_or_default(),
        name: lossy(name),
    }
}

fn read_relationship(package: &Package, position: usize) -> Relationship {
    let text = |field| package.field_text(RELATIONSHIPS, position, field);
    let external = package.field(RELATIONSHIPS, position, 3) == [1];
    Relationship {
        source: text(0),
        id: text(1),
        kind: text(2),
        mode: match external {
            true => Mode::External,
            false => Mode::Internal,
        },
        target: text(4),
    }
}

/// The first position that doesn't go before what is sought, found by halving.
pub(super) fn first(mut range: Range<usize>, goes_before: impl Fn(usize) -> bool) -> usize {
    while !range.is_empty() {
        let middle = range.start + range.len() / 2;
        if goes_before(middle) {
            range.start = middle + 1;
        } else {
            range.end = middle;
        }
    }
    range.start
}
