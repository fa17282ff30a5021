//! A package that owns its bytes.

use super::{buffer_len, Package, CAPACITY_MAX};
use crate::Refusal;
use alloc::borrow::ToOwned;
use alloc::vec;
use alloc::vec::Vec;
use core::borrow::{Borrow, BorrowMut};
use core::fmt;
use core::ops::{Deref, DerefMut};

/// A package that owns its bytes. It has all calls of [`Package`].
///
/// ```
/// use zombirels::package::PackageBuf;
/// let mut slide = PackageBuf::start(1000)?;
/// slide.put_item("/t3", "tile")?;
/// let kept = slide.clone();
/// slide.drop_item("/t3")?;
/// assert_eq!(slide.totals()?.items, 0);
/// assert_eq!(kept.read_part_to_vec("/t3")?, b"tile");
/// # Ok::<(), zombirels::Refusal>(())
/// ```
///
/// A package doesn't grow. What it holds is put into a larger one, entry by
/// entry:
///
/// ```
/// # use zombirels::package::{Mode, PackageBuf};
/// # let mut slide = PackageBuf::start(100)?;
/// # slide.put_item("/t3/[0].piece", "tile")?;
/// # slide.put_default("tiff", "image/tiff")?;
/// # slide.put_override("/t3", "image/tiff")?;
/// # slide.put_relationship("/", "r1", "a:tile", Mode::Internal, "t3")?;
/// let mut larger = PackageBuf::start(1000)?;
/// for item in slide.items()? {
///     larger.put_item(item.name, item.bytes)?;
/// }
/// for entry in slide.defaults()? {
///     larger.put_default(entry.extension, entry.media_type)?;
/// }
/// for entry in slide.overrides()? {
///     larger.put_override(entry.name, entry.media_type)?;
/// }
/// for link in slide.relationships()? {
///     larger.put_relationship(link.source, link.id, link.kind, link.mode, link.target)?;
/// }
/// # assert_eq!(larger.totals(), slide.totals());
/// # Ok::<(), zombirels::Refusal>(())
/// ```
#[derive(Clone)]
pub struct PackageBuf {
    bytes: Vec<u8>,
}

/// Shows how many bytes there are, not these.
impl fmt::Debug for PackageBuf {
    fn fmt(&self, f: &mut fmt::Formatter<'_>) -> fmt::Result {
        f.debug_struct("PackageBuf")
            .field("length", &self.bytes.len())
            .finish_non_exhaustive()
    }
}

impl PackageBuf {
    /// An empty package that takes a charge up to `capacity`.
    ///
    /// # Errors
    ///
    /// [`Refusal::BadStart`] if `capacity` is above [`CAPACITY_MAX`].
    pub fn start(capacity: u64) -> Result<PackageBuf, Refusal> {
        let mut package = PackageBuf { bytes: Vec::new() };
        package.restart(capacity)?;
        Ok(package)
    }

    /// Empties the package and gives it another capacity, and the bytes that
    /// it needs for that.
    ///
    /// # Errors
    ///
    /// As [`PackageBuf::start`]; everything that was held still is.
    ///
    /// ```
    /// use zombirels::package::PackageBuf;
    /// let mut slide = PackageBuf::start(4)?;
    /// assert!(slide.put_item("/t3", "tile").is_err());
    /// slide.restart(7)?;
    /// slide.put_item("/t3", "tile")?;
    /// # Ok::<(), zombirels::Refusal>(())
    /// ```
    pub fn restart(&mut self, capacity: u64) -> Result<(), Refusal> {
        if capacity > CAPACITY_MAX {
            return Err(Refusal::BadStart);
        }
        let length = buffer_len(capacity);
        if self.bytes.len() < length {
            // nothing of the old bytes is needed
            self.bytes = vec![0; length];
        }
        Package::open_mut(&mut self.bytes).restart(capacity)
    }

    /// Takes bytes that hold a package.
    ///
    /// # Errors
    ///
    /// [`FromBytesError`], with the bytes, if they are no package.
    ///
    /// ```
    /// use zombirels::package::PackageBuf;
    /// let mut slide = PackageBuf::start(100)?;
    /// slide.put_item("/t3", "tile")?;
    /// let stored: Vec<u8> = slide.into_bytes();
    ///
    /// let slide = PackageBuf::try_open(stored)?;
    /// assert_eq!(slide.find_item("/t3"), Ok(4));
    ///
    /// let error = PackageBuf::try_open(b"no package".to_vec()).unwrap_err();
    /// assert_eq!(error.into_bytes(), b"no package");
    /// # Ok::<(), zombirels::Refusal>(())
    /// ```
    pub fn try_open(bytes: Vec<u8>) -> Result<PackageBuf, FromBytesError> {
        match Package::open(&bytes).check() {
            Ok(()) => Ok(PackageBuf { bytes }),
            Err(_) => Err(FromBytesError { bytes }),
        }
    }

    /// The package's bytes.
    #[must_use]
    pub fn into_bytes(self) -> Vec<u8> {
        self.bytes
    }

    /// The package as one that is lent.
    #[must_use]
    pub fn as_package(&self) -> &Package {
        Package::open(&self.bytes)
    }
}

impl Deref for PackageBuf {
    type Target = Package;

    fn deref(&self) -> &Package {
        self.as_package()
    }
}

impl DerefMut for PackageBuf {
    fn deref_mut(&mut self) -> &mut Package {
        Package::open_mut(&mut self.bytes)
    }
}

impl AsRef<Package> for PackageBuf {
    fn as_ref(&self) -> &Package {
        self
    }
}

/// The package's bytes, as to store them:
///
/// ```no_run
/// # let slide = zombirels::package::PackageBuf::start(100)?;
/// std::fs::write("slide.package", &slide)?;
/// # Ok::<(), Box<dyn std::error::Error>>(())
/// ```
impl AsRef<[u8]> for PackageBuf {
    fn as_ref(&self) -> &[u8] {
        &self.bytes
    }
}

impl AsRef<[u8]> for Package {
    fn as_ref(&self) -> &[u8] {
        self.as_bytes()
    }
}

impl AsMut<Package> for PackageBuf {
    fn as_mut(&mut self) -> &mut Package {
        self
    }
}

impl AsRef<Package> for Package {
    fn as_ref(&self) -> &Package {
        self
    }
}

impl Borrow<Package> for PackageBuf {
    fn borrow(&self) -> &Package {
        self
    }
}

impl BorrowMut<Package> for PackageBuf {
    fn borrow_mut(&mut self) -> &mut Package {
        self
    }
}

/// Copies the bytes.
///
/// ```
/// use zombirels::package::{buffer_len, Package, PackageBuf};
/// let mut lent = [0; buffer_len(100)];
/// let slide = Package::start(&mut lent, 100)?;
/// let mut copy: PackageBuf = slide.to_owned();
/// copy.put_item("/t3", "tile")?;
/// assert_eq!(slide.totals()?.items, 0);
/// # Ok::<(), zombirels::Refusal>(())
/// ```
impl ToOwned for Package {
    type Owned = PackageBuf;

    fn to_owned(&self) -> PackageBuf {
        let bytes = self.as_bytes().to_vec();
        PackageBuf { bytes }
    }
}

/// As [`PackageBuf::try_open`].
impl TryFrom<Vec<u8>> for PackageBuf {
    type Error = FromBytesError;

    fn try_from(bytes: Vec<u8>) -> Result<PackageBuf, FromBytesError> {
        PackageBuf::try_open(bytes)
    }
}

/// As [`Package::try_open`].
impl<'a> TryFrom<&'a [u8]> for &'a Package {
    type Error = Refusal;

    fn try_from(bytes: &'a [u8]) -> Result<&'a Package, Refusal> {
        Package::try_open(bytes)
    }
}

impl From<PackageBuf> for Vec<u8> {
    fn from(package: PackageBuf) -> Vec<u8> {
        package.into_bytes()
    }
}

/// Why bytes are not taken for a package, and these bytes:
/// [`Refusal::NotAPackage`].
#[derive(Clone, PartialEq, Eq)]
pub struct FromBytesError {
    bytes: Vec<u8>,
}

impl FromBytesError {
    /// The bytes that were given.
    #[must_use]
    pub fn into_bytes(self) -> Vec<u8> {
        self.bytes
    }

    /// The bytes that were given.
    #[must_use]
    pub fn as_bytes(&self) -> &[u8] {
        &self.bytes
    }

    /// Why they are not taken: [`Refusal::NotAPackage`].
    #[must_use]
    pub const fn refusal(&self) -> Refusal {
        Refusal::NotAPackage
    }
}

/// Shows how many bytes there are, not these.
impl fmt::Debug for FromBytesError {
    fn fmt(&self, f: &mut fmt::Formatter<'_>) -> fmt::Result {
        f.debug_struct("FromBytesError")
            .field("length", &self.bytes.len())
            .finish_non_exhaustive()
    }
}

impl fmt::Display for FromBytesError {
    fn fmt(&self, f: &mut fmt::Formatter<'_>) -> fmt::Result {
        Refusal::NotAPackage.fmt(f)
    }
}

impl core::error::Error for FromBytesError {}

impl From<FromBytesError> for Refusal {
    fn from(_: FromBytesError) -> Refusal {
        Refusal::NotAPackage
    }
}

#[cfg(feature = "std")]
impl From<FromBytesError> for std::io::Error {
    fn from(error: FromBytesError) -> std::io::Error {
        Refusal::from(error).into()
    }
}
