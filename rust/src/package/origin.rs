//! Which entry a part's media type comes from.

use super::Package;
use crate::ffi;
use crate::lent::write_two;
use crate::names::PART_NAME_MAX;
use crate::owned;
use crate::Refusal;
use alloc::string::String;
use core::fmt;

/// The entry that a part's media type comes from, with its key as it was
/// spelled when it was put: `&[u8]` in a lent output, or a `String`.
#[derive(Clone, Copy, Debug, PartialEq, Eq, Hash)]
pub enum TypeOrigin<K> {
    /// The Override of this name.
    Override(K),
    /// The Default of this extension; the part has no Override.
    Default(K),
    /// No entry: the part has no media type.
    Neither,
}

impl<K> TypeOrigin<K> {
    /// From the number of the kind.
    fn new(kind: usize, key: K) -> TypeOrigin<K> {
        match kind {
            0 => TypeOrigin::Neither,
            1 => TypeOrigin::Default(key),
            2 => TypeOrigin::Override(key),
            _ => unreachable!("the archive has three kinds"),
        }
    }

    /// The number of the kind: 2 for an Override, 1 for a Default, 0 for
    /// neither.
    #[must_use]
    pub fn number(&self) -> u64 {
        match self {
            TypeOrigin::Override(_) => 2,
            TypeOrigin::Default(_) => 1,
            TypeOrigin::Neither => 0,
        }
    }

    /// The key of the entry: an Override's name or a Default's extension.
    #[must_use]
    pub fn key(self) -> Option<K> {
        match self {
            TypeOrigin::Override(key) | TypeOrigin::Default(key) => Some(key),
            TypeOrigin::Neither => None,
        }
    }
}

/// The kind and the key: `Override /t3.tiff`, `Default tiff`, or `neither`.
impl<K: fmt::Display> fmt::Display for TypeOrigin<K> {
    fn fmt(&self, f: &mut fmt::Formatter<'_>) -> fmt::Result {
        match self {
            TypeOrigin::Override(name) => write!(f, "Override {name}"),
            TypeOrigin::Default(extension) => write!(f, "Default {extension}"),
            TypeOrigin::Neither => f.write_str("neither"),
        }
    }
}

impl<'o> TypeOrigin<&'o [u8]> {
    /// From the two values of the archive's answer, and the output.
    pub(crate) fn from_values([kind, length]: [usize; 2], out: &'o [u8]) -> TypeOrigin<&'o [u8]> {
        assert!(kind != 0 || length == 0, "no entry, no key");
        TypeOrigin::new(kind, &out[..length])
    }
}

impl Package {
    /// Tells which entry a part's media type comes from: its Override, else
    /// the Default of its extension, else neither, just where
    /// [`Package::media_type`] is refused by [`Refusal::NoMediaType`]. The
    /// entry's key is copied as it was spelled when it was put.
    /// [`PART_NAME_MAX`] bytes always suffice, and none are needed where there
    /// is no entry; what stood past the key is kept.
    ///
    /// # Errors
    ///
    /// [`Refusal::NotAPackage`]; [`Refusal::NotAPartName`];
    /// [`Refusal::NotHeld`] if no items make that part, or not yet;
    /// [`Refusal::OutputTooShort`] for the key.
    ///
    /// ```
    /// use zombirels::names::PART_NAME_MAX;
    /// use zombirels::package::{PackageBuf, TypeOrigin};
    /// use zombirels::Refusal;
    /// let mut slide = PackageBuf::start(100)?;
    /// slide.put_item("/t3.tiff", "tile")?;
    /// let mut out = [0; PART_NAME_MAX];
    /// let origin = slide.type_origin("/t3.tiff", &mut out)?;
    /// assert_eq!(origin, TypeOrigin::Neither);
    ///
    /// slide.put_default("TIFF", "image/tiff")?;
    /// let origin = slide.type_origin("/t3.tiff", &mut out)?;
    /// assert_eq!(origin, TypeOrigin::Default(&b"TIFF"[..]));
    ///
    /// slide.put_override("/T3.tiff", "image/tiff;page=2")?;
    /// let origin = slide.type_origin("/t3.tiff", &mut out)?;
    /// assert_eq!(origin, TypeOrigin::Override(&b"/T3.tiff"[..]));
    /// assert_eq!(origin.key(), Some(&b"/T3.tiff"[..]));
    ///
    /// let short = slide.type_origin("/t3.tiff", &mut out[..7]);
    /// assert_eq!(short, Err(Refusal::OutputTooShort { needed: 8 }));
    /// # Ok::<(), Refusal>(())
    /// ```
    pub fn type_origin<'o>(
        &self,
        name: impl AsRef<[u8]>,
        out: &'o mut [u8],
    ) -> Result<TypeOrigin<&'o [u8]>, Refusal> {
        let values = self.origin(name.as_ref(), out)?;
        Ok(TypeOrigin::from_values(values, out))
    }

    /// Tells which entry a part's media type comes from, with its key.
    ///
    /// # Errors
    ///
    /// As [`Package::type_origin`], but for the output;
    /// [`Refusal::NotAPackage`] if the key is no text.
    ///
    /// ```
    /// use zombirels::package::{PackageBuf, TypeOrigin};
    /// let mut slide = PackageBuf::start(100)?;
    /// slide.put_item("/t3.tiff", "tile")?;
    /// slide.put_default("TIFF", "image/tiff")?;
    /// let origin = slide.type_origin_to_string("/t3.tiff")?;
    /// assert_eq!(origin, TypeOrigin::Default("TIFF".to_string()));
    /// # Ok::<(), zombirels::Refusal>(())
    /// ```
    pub fn type_origin_to_string(
        &self,
        name: impl AsRef<[u8]>,
    ) -> Result<TypeOrigin<String>, Refusal> {
        let (name, mut kind) = (name.as_ref(), 0);
        let key = owned::to_string(PART_NAME_MAX, |out| {
            let [found, length] = self.origin(name, out)?;
            kind = found;
            Ok(length)
        })?;
        Ok(TypeOrigin::new(kind, key))
    }

    /// The number of the kind, and the length of the key.
    fn origin(&self, name: &[u8], out: &mut [u8]) -> Result<[usize; 2], Refusal> {
        write_two(ffi::opc_type_origin, &self.0, name, out).values()
    }
}
