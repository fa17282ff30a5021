//! Item names taken apart, and put together.

use crate::ffi;
use crate::lent::ask;
use crate::Refusal;
use alloc::string::String;
use core::fmt;

/// The mark of a piece. As text it is the suffix: `/[2].last.piece`.
#[derive(Clone, Copy, Debug, PartialEq, Eq, Hash)]
pub struct Piece {
    /// The number of the piece, 0 to 9,999.
    pub number: u16,
    /// Whether it is the last piece of its part.
    pub last: bool,
}

impl fmt::Display for Piece {
    fn fmt(&self, f: &mut fmt::Formatter<'_>) -> fmt::Result {
        let mark = if self.last { ".last" } else { "" };
        write!(f, "/[{}]{mark}.piece", self.number)
    }
}

/// An item name taken apart. As text it is the name, its suffix in small
/// letters.
///
/// ```
/// use zombirels::names::{ItemName, Piece};
/// use zombirels::Refusal;
/// let item = ItemName::try_from("/t3/[2].LAST.piece")?;
/// assert_eq!(item.piece, Some(Piece { number: 2, last: true }));
/// assert_eq!(item.to_string(), "/t3/[2].last.piece");
/// assert_eq!(ItemName::try_from("t3"), Err(Refusal::NotAPartName));
/// # Ok::<(), Refusal>(())
/// ```
#[derive(Clone, Copy, Debug, PartialEq, Eq, Hash)]
pub struct ItemName<'a> {
    /// The name of the part that the item belongs to.
    pub prefix: &'a [u8],
    /// The mark of a piece; a whole item has none.
    pub piece: Option<Piece>,
}

impl fmt::Display for ItemName<'_> {
    fn fmt(&self, f: &mut fmt::Formatter<'_>) -> fmt::Result {
        f.write_str(&String::from_utf8_lossy(self.prefix))?;
        match self.piece {
            Some(piece) => piece.fmt(f),
            None => Ok(()),
        }
    }
}

/// As [`take_apart`].
impl<'a> TryFrom<&'a [u8]> for ItemName<'a> {
    type Error = Refusal;

    fn try_from(name: &'a [u8]) -> Result<ItemName<'a>, Refusal> {
        let [length, mark, number] = ask(ffi::opc_take_apart, name).values()?;
        assert!(mark <= 2, "the archive has three marks");
        let piece = (mark != 0).then_some(Piece {
            number: number as u16,
            last: mark == 2,
        });
        let prefix = &name[..length];
        Ok(ItemName { prefix, piece })
    }
}

/// As [`take_apart`].
impl<'a> TryFrom<&'a str> for ItemName<'a> {
    type Error = Refusal;

    fn try_from(name: &'a str) -> Result<ItemName<'a>, Refusal> {
        ItemName::try_from(name.as_bytes())
    }
}

/// Takes an item name apart: a part name alone, or a part name followed by
/// `/[k].piece` or `/[k].last.piece`. Reserved names pass.
///
/// # Errors
///
/// [`Refusal::BadSuffix`] if what follows the last slash begins with `[` and
/// is no such suffix, else [`Refusal::NotAPartName`].
///
/// ```
/// use zombirels::{names::take_apart, Refusal};
/// let item = take_apart("/t3/[12].PIECE").unwrap();
/// assert_eq!(item.prefix, b"/t3");
/// assert_eq!(item.piece.unwrap().number, 12);
/// assert_eq!(take_apart("/t3/[01].piece"), Err(Refusal::BadSuffix));
/// ```
pub fn take_apart(name: &(impl AsRef<[u8]> + ?Sized)) -> Result<ItemName<'_>, Refusal> {
    ItemName::try_from(name.as_ref())
}
