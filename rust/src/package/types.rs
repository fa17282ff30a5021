//! Media types: Defaults and Overrides.

use super::Package;
use crate::ffi;
use crate::lent::{change, change_two, write_two};
use crate::names::MEDIA_TYPE_MAX;
use crate::owned;
use crate::Refusal;
use alloc::string::String;

impl Package {
    /// Holds a Default: the media type of parts whose names have that
    /// extension and no Override. The type may have parameters, see
    /// [`is_media_type`](crate::names::is_media_type).
    ///
    /// # Errors
    ///
    /// [`Refusal::NotAPackage`]; [`Refusal::BadType`] for either field;
    /// [`Refusal::Taken`] if an equivalent extension has one;
    /// [`Refusal::Full`].
    ///
    /// ```
    /// use zombirels::package::PackageBuf;
    /// use zombirels::Refusal;
    /// let mut slide = PackageBuf::start(100)?;
    /// slide.put_default("tiff", "image/tiff")?;
    /// assert_eq!(slide.put_default("TIFF", "image/x"), Err(Refusal::Taken));
    /// assert_eq!(slide.put_default("xml", "xml"), Err(Refusal::BadType));
    /// assert_eq!(slide.put_default("xml", "a/b;c"), Err(Refusal::BadType));
    /// assert_eq!(slide.totals()?.charge, 14);
    /// # Ok::<(), Refusal>(())
    /// ```
    pub fn put_default(
        &mut self,
        extension: impl AsRef<[u8]>,
        media_type: impl AsRef<[u8]>,
    ) -> Result<(), Refusal> {
        let (extension, media_type) = (extension.as_ref(), media_type.as_ref());
        change_two(ffi::opc_put_default, &mut self.0, extension, media_type).done()
    }

    /// Drops the Default of an equivalent extension. Its charge is free again.
    ///
    /// # Errors
    ///
    /// [`Refusal::NotAPackage`]; [`Refusal::BadType`]; [`Refusal::NotHeld`].
    ///
    /// ```
    /// use zombirels::package::PackageBuf;
    /// use zombirels::Refusal;
    /// let mut slide = PackageBuf::start(100)?;
    /// slide.put_default("tiff", "image/tiff")?;
    /// assert_eq!(slide.drop_default("Tiff"), Ok(()));
    /// assert_eq!(slide.drop_default("tiff"), Err(Refusal::NotHeld));
    /// # Ok::<(), Refusal>(())
    /// ```
    pub fn drop_default(&mut self, extension: impl AsRef<[u8]>) -> Result<(), Refusal> {
        change(ffi::opc_drop_default, &mut self.0, extension.as_ref()).done()
    }

    /// Holds an Override: the media type of the part with that name. The part
    /// need not be held, and the name may be reserved.
    ///
    /// # Errors
    ///
    /// [`Refusal::NotAPackage`]; [`Refusal::NotAPartName`];
    /// [`Refusal::BadType`]; [`Refusal::Taken`] if an equivalent name has one;
    /// [`Refusal::Full`].
    ///
    /// ```
    /// use zombirels::package::PackageBuf;
    /// use zombirels::Refusal;
    /// let mut slide = PackageBuf::start(100)?;
    /// slide.put_override("/t3.tiff", "image/x-tile")?;
    /// let again = slide.put_override("/T3.tiff", "image/tiff");
    /// assert_eq!(again, Err(Refusal::Taken));
    /// # Ok::<(), Refusal>(())
    /// ```
    pub fn put_override(
        &mut self,
        name: impl AsRef<[u8]>,
        media_type: impl AsRef<[u8]>,
    ) -> Result<(), Refusal> {
        let (name, media_type) = (name.as_ref(), media_type.as_ref());
        change_two(ffi::opc_put_override, &mut self.0, name, media_type).done()
    }

    /// Drops the Override of an equivalent name. Its charge is free again.
    ///
    /// # Errors
    ///
    /// [`Refusal::NotAPackage`]; [`Refusal::NotAPartName`];
    /// [`Refusal::NotHeld`].
    ///
    /// ```
    /// use zombirels::package::PackageBuf;
    /// use zombirels::Refusal;
    /// let mut slide = PackageBuf::start(100)?;
    /// slide.put_override("/t3", "image/tiff")?;
    /// assert_eq!(slide.drop_override("/T3"), Ok(()));
    /// assert_eq!(slide.drop_override("/t3"), Err(Refusal::NotHeld));
    /// # Ok::<(), Refusal>(())
    /// ```
    pub fn drop_override(&mut self, name: impl AsRef<[u8]>) -> Result<(), Refusal> {
        change(ffi::opc_drop_override, &mut self.0, name.as_ref()).done()
    }

    /// Copies the media type of a part, its Override's or else that of the
    /// Default of its extension, as it was given, and answers its length.
    /// [`MEDIA_TYPE_MAX`] bytes always suffice.
    ///
    /// # Errors
    ///
    /// [`Refusal::NotAPackage`]; [`Refusal::NotAPartName`];
    /// [`Refusal::NotHeld`] if no items make that part, or not yet;
    /// [`Refusal::NoMediaType`]; [`Refusal::OutputTooShort`].
    ///
    /// ```
    /// use zombirels::names::MEDIA_TYPE_MAX;
    /// use zombirels::package::PackageBuf;
    /// use zombirels::Refusal;
    /// let mut slide = PackageBuf::start(100)?;
    /// slide.put_item("/t3.tiff", "tile")?;
    /// let mut out = [0; MEDIA_TYPE_MAX];
    /// let none = slide.media_type("/t3.tiff", &mut out);
    /// assert_eq!(none, Err(Refusal::NoMediaType));
    /// slide.put_default("TIFF", "image/tiff")?;
    /// let length = slide.media_type("/t3.tiff", &mut out)?;
    /// assert_eq!(&out[..length], b"image/tiff");
    /// slide.put_override("/T3.tiff", "image/tiff;page=2")?;
    /// let length = slide.media_type("/t3.tiff", &mut out)?;
    /// assert_eq!(&out[..length], b"image/tiff;page=2");
    /// # Ok::<(), Refusal>(())
    /// ```
    pub fn media_type(&self, name: impl AsRef<[u8]>, out: &mut [u8]) -> Result<usize, Refusal> {
        write_two(ffi::opc_media_type, &self.0, name.as_ref(), out).value()
    }

    /// The media type of a part.
    ///
    /// # Errors
    ///
    /// As [`Package::media_type`], but for the output;
    /// [`Refusal::NotAPackage`] if it is no text.
    ///
    /// ```
    /// use zombirels::package::PackageBuf;
    /// let mut slide = PackageBuf::start(100)?;
    /// slide.put_item("/t3.tiff", "tile")?;
    /// slide.put_default("tiff", "image/tiff")?;
    /// assert_eq!(slide.media_type_to_string("/T3.tiff")?, "image/tiff");
    /// # Ok::<(), zombirels::Refusal>(())
    /// ```
    pub fn media_type_to_string(&self, name: impl AsRef<[u8]>) -> Result<String, Refusal> {
        let name = name.as_ref();
        owned::to_string(MEDIA_TYPE_MAX, |out| self.media_type(name, out))
    }
}
