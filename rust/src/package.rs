//! A package in one buffer: items, the parts that they make, their media
//! types, relationships, totals, XML streams, written and read.
//!
//! An *item* is a name and its bytes. A whole item is a part by itself; the
//! pieces `/[0].piece`, `/[1].piece` .. `/[n].last.piece` of a name make one
//! part once all are there, in whatever order they came. A whole part can be
//! cut into pieces and these be joined again: what is read stays the same.
//! Names are kept as given and looked up without regard to the case of ASCII
//! letters.
//!
//! A part's media type is that of its *Override*, by name, else that of the
//! *Default* of its extension. It may have parameters (`image/tiff;page=2`) and
//! is kept as given. [`Package::type_origin`] tells which entry it comes from.
//! A *relationship* leads from a source, a part or the package itself (`/`), to
//! a target.
//!
//! [`Package`] and [`PackageBuf`] are to each other as `Path` and `PathBuf`. A
//! package lies in bytes and nowhere else: a `&Package` in those that a caller
//! lends for reading, such as a mapped file, a `&mut Package` in those that may
//! be changed as well, a [`PackageBuf`] in its own. They may be stored, mapped
//! or sent, and opened again. The engine allocates nothing.
//!
//! The bytes are laid out in the engine's own way, not as a ZIP archive: it
//! opens what it made, and no `.docx`.
//!
//! ```
//! use zombirels::package::PackageBuf;
//! use zombirels::Refusal;
//!
//! let mut slide = PackageBuf::start(10_000)?;
//! slide.put_item("/Left/T3/[1].last.piece", "world")?;
//! slide.put_item("/left/t3/[0].piece", "hello ")?;
//! assert_eq!(slide.put_item("/left", ""), Err(Refusal::Derivable));
//! assert_eq!(slide.read_part_to_vec("/LEFT/T3")?, b"hello world");
//! # Ok::<(), Refusal>(())
//! ```
//!
//! # Outputs
//!
//! A call that writes takes the output as a lent slice and answers how many
//! bytes it wrote; what stood past these is kept. If the output is too short,
//! [`Refusal::OutputTooShort`] says how many bytes are needed, and nothing is
//! written. Beside it stands a call that answers a `Vec` or a `String`, which
//! has that length at once.
//!
//! # Streams that are read
//!
//! [`Package::read_types`] and [`Package::read_relationships`] read what
//! [`Package::write_types`] and [`Package::write_relationships`] wrote, and
//! streams of others that are written in this part of XML 1.0:
//!
//! - the declaration of those streams, byte for byte at the very start, or
//!   none; one root with their namespace, which is declared as default;
//! - entries as empty tags or tag pairs, their attributes in any order and with
//!   either quote mark, `TargetMode` perhaps missing for an internal target; in
//!   values the entities `&lt;`, `&gt;`, `&amp;`, `&quot;`, `&apos;`;
//! - blanks in and around tags, comments around them;
//! - elements with prefixed names, which are passed over with all that they
//!   hold, text too, if their tags match; `xmlns:` declarations and other
//!   prefixed attributes, which are passed over likewise. The root is at depth
//!   1, and no element is deeper than 16.
//!
//! Names are ASCII letters, digits, `_`, `.` and `-`, and a colon behind a
//! prefix. Everything else is malformed, such as another declaration, a byte
//! order mark, CDATA, character references, an unknown attribute or one that
//! is repeated.
//!
//! # Bytes that no calls made
//!
//! Damaged bytes, or another's, may pass for a package without being one that
//! calls made. Every call ends on them, and changes nothing when it refuses,
//! but what they hold may be odd. A text in them may be no UTF-8: there a call
//! that answers a `String` is refused by [`Refusal::NotAPackage`]. So is
//! [`Package::read_part_to_vec`] of more content than there are bytes.
//!
//! An iterator over them still yields as many as it said, and ends. What is no
//! UTF-8 it replaces as [`String::from_utf8_lossy`] does; a text that can't be
//! read, or is longer than those that calls make, it yields as an empty one.
//!
//! [`String::from_utf8_lossy`]: alloc::string::String::from_utf8_lossy

mod buf;
mod entries;
mod items;
mod limits;
mod listing;
mod mode;
mod origin;
mod part;
mod parts;
mod pieces;
#[cfg(feature = "std")]
mod reader;
mod relationships;
mod streams;
mod types;
mod walk;

pub use buf::{FromBytesError, PackageBuf};
pub use entries::{Entries, EntryField};
pub use limits::{
    buffer_len, CAPACITY_MAX, DEFAULTS_MAX, ITEMS_MAX, OVERHEAD, OVERRIDES_MAX, RELATIONSHIPS_MAX,
    RELATIONSHIPS_STREAM_MAX, TYPES_STREAM_MAX,
};
pub use listing::{
    DefaultEntry, Defaults, Item, Items, OverrideEntry, Overrides, Relationship, Relationships,
};
pub use mode::Mode;
pub use origin::TypeOrigin;
pub use part::Part;
pub use pieces::Cut;
#[cfg(feature = "std")]
pub use reader::PartReader;
pub use relationships::{Resolved, ResolvedIri};
pub use walk::{Parts, Unfinished};

use crate::ffi;
use crate::lent::{self, ask};
use crate::Refusal;
use core::fmt;

/// A package in bytes that are lent: a `&Package` is only looked at, a
/// `&mut Package` can be changed. [`PackageBuf`] owns one.
///
/// ```
/// use zombirels::package::{buffer_len, Package};
/// let mut buffer = [0; buffer_len(100)];
/// let slide = Package::start(&mut buffer, 100)?;
/// slide.put_item("/T3.tiff", "tile")?;
///
/// let stored: &[u8] = &buffer;
/// let slide = Package::open(stored);
/// assert_eq!(slide.totals()?.parts, 1);
/// assert_eq!(slide.view_item("/t3.tiff"), Some(&b"tile"[..]));
/// # Ok::<(), zombirels::Refusal>(())
/// ```
#[repr(transparent)]
pub struct Package([u8]);

/// Shows the length of the buffer, not its bytes.
impl fmt::Debug for Package {
    fn fmt(&self, f: &mut fmt::Formatter<'_>) -> fmt::Result {
        f.debug_struct("Package")
            .field("length", &self.0.len())
            .finish_non_exhaustive()
    }
}

/// What [`Package::totals`] answers.
#[derive(Clone, Copy, Debug, PartialEq, Eq, Hash)]
pub struct Totals {
    /// How many items are held.
    pub items: usize,
    /// How many parts they make. Pieces are none before the last has come.
    pub parts: usize,
    /// The bytes that all fields of all entries have together: names with
    /// their suffixes, contents, extensions, types, and of relationships the
    /// source, id, type and target.
    pub charge: usize,
}

impl Package {
    /// Makes an empty package of `buffer`, whatever it held. `capacity` is the
    /// greatest [charge](Totals::charge) that the package takes; no call tells
    /// it afterwards.
    ///
    /// # Errors
    ///
    /// [`Refusal::BadStart`] if `capacity` is above [`CAPACITY_MAX`] or the
    /// buffer has less than [`buffer_len`]`(capacity)` bytes; these are as they
    /// were.
    pub fn start(buffer: &mut [u8], capacity: u64) -> Result<&mut Package, Refusal> {
        let package = Package::open_mut(buffer);
        package.restart(capacity)?;
        Ok(package)
    }

    /// Takes `buffer` for a package that was started in it before. Nothing is
    /// looked at yet: if it is none, every call is refused by
    /// [`Refusal::NotAPackage`].
    ///
    /// ```
    /// use zombirels::package::{Package, PackageBuf};
    /// let mut slide = PackageBuf::start(100)?;
    /// slide.put_item("/a", "tile")?;
    /// let stored = slide.into_bytes();
    /// assert_eq!(Package::open(&stored).find_item("/A"), Ok(4));
    /// assert!(Package::open(&[0; 100]).totals().is_err());
    /// # Ok::<(), zombirels::Refusal>(())
    /// ```
    #[must_use]
    pub const fn open(buffer: &[u8]) -> &Package {
        // SAFETY: `Package` is transparent over `[u8]` and takes any bytes, so
        // that the pointer is one to a `Package` of the same bytes and life.
        unsafe { &*(core::ptr::from_ref(buffer) as *const Package) }
    }

    /// As [`Package::open`], to be changed as well. Of bytes that are no
    /// package [`Package::restart`] makes one.
    ///
    /// ```
    /// use zombirels::package::{buffer_len, Package};
    /// let mut buffer = vec![0; buffer_len(100)];
    /// Package::open_mut(&mut buffer).restart(100)?;
    /// assert_eq!(Package::open_mut(&mut buffer).put_item("/a", ""), Ok(()));
    /// # Ok::<(), zombirels::Refusal>(())
    /// ```
    #[must_use]
    pub fn open_mut(buffer: &mut [u8]) -> &mut Package {
        // SAFETY: as in `open`; the bytes are lent for writing, and stay bytes
        // whatever is written.
        unsafe { &mut *(core::ptr::from_mut(buffer) as *mut Package) }
    }

    /// As [`Package::open`], of a package alone: its first bytes have the mark,
    /// the format and numbers that fit the length. There is no checksum, and
    /// other bytes aren't looked at: see
    /// [above](self#bytes-that-no-calls-made).
    ///
    /// # Errors
    ///
    /// [`Refusal::NotAPackage`].
    ///
    /// ```
    /// use zombirels::package::{Package, PackageBuf};
    /// use zombirels::Refusal;
    /// let slide = PackageBuf::start(100)?;
    /// assert!(Package::try_open(slide.as_bytes()).is_ok());
    /// let none = Package::try_open(b"no package").map(drop);
    /// assert_eq!(none, Err(Refusal::NotAPackage));
    /// # Ok::<(), Refusal>(())
    /// ```
    pub fn try_open(buffer: &[u8]) -> Result<&Package, Refusal> {
        let package = Package::open(buffer);
        package.check().map(|()| package)
    }

    /// As [`Package::open_mut`], of a package alone.
    ///
    /// # Errors
    ///
    /// [`Refusal::NotAPackage`].
    ///
    /// ```
    /// use zombirels::package::{Package, PackageBuf};
    /// let mut stored = PackageBuf::start(100)?.into_bytes();
    /// Package::try_open_mut(&mut stored)?.put_item("/a", "tile")?;
    /// assert!(Package::try_open_mut(&mut stored[1..]).is_err());
    /// # Ok::<(), zombirels::Refusal>(())
    /// ```
    pub fn try_open_mut(buffer: &mut [u8]) -> Result<&mut Package, Refusal> {
        let package = Package::open_mut(buffer);
        package.check().map(|()| package)
    }

    /// Refuses what is no package. Of one, no item has an empty name.
    pub(crate) fn check(&self) -> Result<(), Refusal> {
        match self.find_item("") {
            Err(Refusal::NotAPackage) => Err(Refusal::NotAPackage),
            _ => Ok(()),
        }
    }

    /// Empties the package and gives it another capacity.
    ///
    /// # Errors
    ///
    /// As [`Package::start`]; everything that was held still is.
    pub fn restart(&mut self, capacity: u64) -> Result<(), Refusal> {
        lent::start(&mut self.0, capacity).done()
    }

    /// The package's bytes.
    #[must_use]
    pub const fn as_bytes(&self) -> &[u8] {
        &self.0
    }

    /// The package's bytes, to be overwritten. If they are no package then,
    /// every call but [`Package::restart`] is refused by
    /// [`Refusal::NotAPackage`].
    #[must_use]
    pub fn as_bytes_mut(&mut self) -> &mut [u8] {
        &mut self.0
    }

    /// How many items are held, how many parts they make, and the charge.
    ///
    /// # Errors
    ///
    /// [`Refusal::NotAPackage`].
    ///
    /// ```
    /// use zombirels::package::{PackageBuf, Totals};
    /// let mut slide = PackageBuf::start(100)?;
    /// slide.put_item("/t3", "tile")?;
    /// let totals = Totals { items: 1, parts: 1, charge: 7 };
    /// assert_eq!(slide.totals(), Ok(totals));
    /// # Ok::<(), zombirels::Refusal>(())
    /// ```
    pub fn totals(&self) -> Result<Totals, Refusal> {
        let [items, parts, charge] = ask(ffi::opc_totals, &self.0).values()?;
        Ok(Totals {
            items,
            parts,
            charge,
        })
    }
}
