//! Items: put, dropped, found, viewed.

use super::Package;
use crate::ffi;
use crate::lent::{ask_two, change, change_two};
use crate::Refusal;

impl Package {
    /// Holds a whole item (`/t3`) or a piece (`/t3/[0].piece`).
    ///
    /// # Errors
    ///
    /// [`Refusal::NotAPackage`]; [`Refusal::BadSuffix`],
    /// [`Refusal::NotAPartName`] or [`Refusal::Reserved`] for the name;
    /// [`Refusal::Taken`], [`Refusal::PiecesDisagree`] or
    /// [`Refusal::Derivable`] beside the held items; [`Refusal::Full`].
    pub fn put_item(
        &mut self,
        name: impl AsRef<[u8]>,
        bytes: impl AsRef<[u8]>,
    ) -> Result<(), Refusal> {
        let (name, bytes) = (name.as_ref(), bytes.as_ref());
        change_two(ffi::opc_put_item, &mut self.0, name, bytes).done()
    }

    /// Drops the item with an equivalent prefix, the same number and the same
    /// last mark. Its charge is free again.
    ///
    /// # Errors
    ///
    /// [`Refusal::NotAPackage`]; [`Refusal::BadSuffix`],
    /// [`Refusal::NotAPartName`] or [`Refusal::Reserved`] for the name;
    /// [`Refusal::NotHeld`].
    pub fn drop_item(&mut self, name: impl AsRef<[u8]>) -> Result<(), Refusal> {
        change(ffi::opc_drop_item, &mut self.0, name.as_ref()).done()
    }

    /// The length of an item.
    ///
    /// # Errors
    ///
    /// [`Refusal::NotAPackage`]; [`Refusal::BadSuffix`] or
    /// [`Refusal::NotAPartName`] for the name; [`Refusal::NotHeld`].
    pub fn find_item(&self, name: impl AsRef<[u8]>) -> Result<usize, Refusal> {
        ask_two(ffi::opc_find_item, &self.0, name.as_ref()).value()
    }

    /// The bytes of an item, where they lie in the package; none where
    /// [`Package::find_item`] is refused.
    ///
    /// ```
    /// use zombirels::package::PackageBuf;
    /// let mut slide = PackageBuf::start(100)?;
    /// slide.put_item("/T3", "tile")?;
    /// slide.put_item("/empty", "")?;
    /// assert_eq!(slide.view_item("/t3"), Some(&b"tile"[..]));
    /// assert_eq!(slide.view_item("/empty"), Some(&b""[..]));
    /// assert_eq!(slide.view_item("/missing"), None);
    /// # Ok::<(), zombirels::Refusal>(())
    /// ```
    #[must_use]
    pub fn view_item(&self, name: impl AsRef<[u8]>) -> Option<&[u8]> {
        self.view(name.as_ref())
    }

    /// The archive views no bytes of an item that is missing.
    fn view(&self, name: &[u8]) -> Option<&[u8]> {
        let reply = ask_two(ffi::opc_view_item, &self.0, name);
        let [offset, length] = reply.values().expect("a view is never refused");
        if length == 0 {
            self.find_item(name).ok()?;
        }
        Some(&self.0[offset..][..length])
    }
}
