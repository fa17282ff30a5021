//! Parts cut into pieces, and joined again.

use super::Package;
use crate::ffi;
use crate::lent::{self, change};
use crate::Refusal;

/// What [`Package::cut_part`] answers: a part of L bytes cut into n pieces has
/// L = n * `size` + `longer`, and `longer` is below n.
#[derive(Clone, Copy, Debug, PartialEq, Eq, Hash)]
pub struct Cut {
    /// How many bytes a piece has, but for the first ones.
    pub size: usize,
    /// How many pieces, the first ones, have a byte more.
    pub longer: usize,
}

impl Package {
    /// Cuts a whole part into so many pieces, 1 to 256, of about the same
    /// size. They take the part's spelling and the numbers from 0 on; the
    /// final one is the last piece. If the part has fewer bytes than it gets
    /// pieces, some are empty. What is read of it, its media type and its
    /// position stay as they are.
    ///
    /// # Errors
    ///
    /// [`Refusal::NotAPackage`]; [`Refusal::NotAPartName`];
    /// [`Refusal::NotHeld`] if no items make that part, or not yet;
    /// [`Refusal::WrongForm`] if it is in pieces; [`Refusal::BadPieceCount`];
    /// [`Refusal::Full`] if the package cannot hold the pieces in place of the
    /// part.
    ///
    /// ```
    /// use zombirels::package::{Cut, PackageBuf};
    /// use zombirels::Refusal;
    /// let mut slide = PackageBuf::start(100)?;
    /// slide.put_item("/T3", "0123456789")?;
    /// assert_eq!(slide.cut_part("/t3", 0), Err(Refusal::BadPieceCount));
    ///
    /// assert_eq!(slide.cut_part("/t3", 4)?, Cut { size: 2, longer: 2 });
    /// assert_eq!(slide.view_item("/t3/[0].piece"), Some(&b"012"[..]));
    /// assert_eq!(slide.view_item("/t3/[1].piece"), Some(&b"345"[..]));
    /// assert_eq!(slide.view_item("/t3/[2].piece"), Some(&b"67"[..]));
    /// assert_eq!(slide.view_item("/t3/[3].last.piece"), Some(&b"89"[..]));
    /// assert_eq!(slide.cut_part("/t3", 4), Err(Refusal::WrongForm));
    /// assert_eq!(slide.read_part_to_vec("/t3")?, b"0123456789");
    /// # Ok::<(), Refusal>(())
    /// ```
    pub fn cut_part(&mut self, name: impl AsRef<[u8]>, pieces: u64) -> Result<Cut, Refusal> {
        let reply = lent::cut_part(&mut self.0, name.as_ref(), pieces);
        reply.values().map(|[size, longer]| Cut { size, longer })
    }

    /// Joins the pieces of a part: one whole item is held in their place, in
    /// the spelling of piece 0. Their charge is free again but for its own.
    /// What is read of the part, its media type and its position stay as they
    /// are.
    ///
    /// # Errors
    ///
    /// [`Refusal::NotAPackage`]; [`Refusal::NotAPartName`];
    /// [`Refusal::NotHeld`] if no items make that part, or not yet;
    /// [`Refusal::WrongForm`] if it is whole.
    ///
    /// ```
    /// use zombirels::package::PackageBuf;
    /// use zombirels::Refusal;
    /// let mut slide = PackageBuf::start(100)?;
    /// slide.put_item("/t3/[1].last.piece", "world")?;
    /// assert_eq!(slide.join_part("/t3"), Err(Refusal::NotHeld));
    /// slide.put_item("/T3/[0].piece", "hello ")?;
    ///
    /// slide.join_part("/t3")?;
    /// assert_eq!(slide.view_item("/t3"), Some(&b"hello world"[..]));
    /// assert_eq!(slide.totals()?.charge, 3 + 11);
    /// assert_eq!(slide.join_part("/t3"), Err(Refusal::WrongForm));
    /// # Ok::<(), Refusal>(())
    /// ```
    pub fn join_part(&mut self, name: impl AsRef<[u8]>) -> Result<(), Refusal> {
        change(ffi::opc_join_part, &mut self.0, name.as_ref()).done()
    }
}
