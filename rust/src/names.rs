//! Part names, item names, media types, extensions and relationship ids.
//!
//! A part name is 2 to 255 bytes of UTF-8: slashes, each followed by a
//! segment that isn't empty and doesn't end with a dot. Capital and small
//! ASCII letters are one: such names are *equivalent*. Names are compared by
//! their *folding*, in which A to Z became a to z.

mod item_name;

pub use item_name::{take_apart, ItemName, Piece};

use crate::ffi;
use crate::lent::{ask, ask_two};
use core::cmp::Ordering;

/// How many bytes a part name has at most.
pub const PART_NAME_MAX: usize = 255;

/// How many bytes an item name has at most: those of a part name, and those
/// of the longest suffix.
pub const ITEM_NAME_MAX: usize = PART_NAME_MAX + "/[9999].last.piece".len();

/// How many bytes a media type has at most.
pub const MEDIA_TYPE_MAX: usize = 127;

/// How many bytes an extension has at most that can get a media type.
pub const EXTENSION_MAX: usize = 31;

/// How many bytes the id of a relationship has at most.
pub const ID_MAX: usize = 63;

/// Whether `name` is a part name.
///
/// ```
/// use zombirels::names::is_part_name;
/// assert!(is_part_name("/hello/world/doc.xml"));
/// assert!(!is_part_name(b"/a/b."));
/// ```
#[must_use]
pub fn is_part_name(name: impl AsRef<[u8]>) -> bool {
    ask(ffi::opc_is_part_name, name.as_ref())
}

/// Whether the part name `name` is reserved for Relationships parts: it ends
/// in `.rels` and its second-to-last segment is `_rels`, in either case. For
/// other bytes than a part name the answer means nothing.
#[must_use]
pub fn is_reserved(name: impl AsRef<[u8]>) -> bool {
    ask(ffi::opc_is_reserved, name.as_ref())
}

/// Whether `a` and `b` are equal but for the case of ASCII letters.
#[must_use]
pub fn is_equivalent(a: impl AsRef<[u8]>, b: impl AsRef<[u8]>) -> bool {
    ask_two(ffi::opc_is_equivalent, a.as_ref(), b.as_ref())
}

/// Whether `a` grows out of `b`: folded, it is `b`, then a slash, then more.
/// No package holds both.
#[must_use]
pub fn is_derivable(a: impl AsRef<[u8]>, b: impl AsRef<[u8]>) -> bool {
    ask_two(ffi::opc_is_derivable, a.as_ref(), b.as_ref())
}

/// Compares the foldings byte by byte; a proper prefix comes first. This is
/// the order in which a package lists its parts.
#[must_use]
pub fn compare_folded(a: impl AsRef<[u8]>, b: impl AsRef<[u8]>) -> Ordering {
    match ask_two(ffi::opc_compare_folded, a.as_ref(), b.as_ref()) {
        0 => Ordering::Less,
        1 => Ordering::Equal,
        2 => Ordering::Greater,
        _ => unreachable!("the archive has three orders"),
    }
}

/// The extension of a part name: what follows the last dot of its last
/// segment. A name without that dot has none.
///
/// ```
/// use zombirels::names::extension;
/// assert_eq!(extension("/tiles.d/t3.ome.tiff"), Some(&b"tiff"[..]));
/// assert_eq!(extension("/tiles.d/t3"), None);
/// ```
#[must_use]
pub fn extension(name: &(impl AsRef<[u8]> + ?Sized)) -> Option<&[u8]> {
    let name = name.as_ref();
    match ask(ffi::opc_extension_at, name) {
        0 => None,
        start => Some(&name[start..]),
    }
}

/// Whether `text` is a media type: token/token, and behind it any number of
/// parameters, each `;`, a token, `=`, a token; 3 to 127 bytes in all. A token
/// is one or more letters, digits and ``!#$%&'*+-.^_`|~``, so that there are no
/// spaces and no quoted values.
///
/// ```
/// use zombirels::names::is_media_type;
/// assert!(is_media_type("image/tiff"));
/// assert!(is_media_type("image/tiff;page=2"));
/// assert!(!is_media_type("image/tiff; page=2"));
/// ```
#[must_use]
pub fn is_media_type(text: impl AsRef<[u8]>) -> bool {
    ask(ffi::opc_is_media_type, text.as_ref())
}

/// Whether `text` is an extension that can get a default media type: 1 to 31
/// bytes of segment characters without a dot.
#[must_use]
pub fn is_extension(text: impl AsRef<[u8]>) -> bool {
    ask(ffi::opc_is_extension, text.as_ref())
}

/// Whether `text` is the id of a relationship: 1 to 63 bytes, a letter or
/// `_`, then letters, digits, `.`, `_` and `-`.
#[must_use]
pub fn is_id(text: impl AsRef<[u8]>) -> bool {
    ask(ffi::opc_is_id, text.as_ref())
}
