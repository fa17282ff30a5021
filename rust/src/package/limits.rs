//! The limits of a package, and the lengths that suffice.

use crate::iri::IRI_MAX;
use crate::names::{EXTENSION_MAX, ID_MAX, MEDIA_TYPE_MAX, PART_NAME_MAX};

/// What the buffer must have beside the capacity, in bytes.
pub const OVERHEAD: usize = 32_768;

/// The greatest capacity that [`Package::start`](super::Package::start) takes.
pub const CAPACITY_MAX: u64 = 1_000_000;

/// How many items a package holds at most.
pub const ITEMS_MAX: usize = 256;

/// How many Defaults a package holds at most.
pub const DEFAULTS_MAX: usize = 64;

/// How many Overrides a package holds at most.
pub const OVERRIDES_MAX: usize = 64;

/// How many relationships a package holds at most.
pub const RELATIONSHIPS_MAX: usize = 256;

/// How many bytes a package of that capacity needs; the greatest number if
/// there are not so many.
///
/// ```
/// use zombirels::package::{buffer_len, OVERHEAD};
/// assert_eq!(buffer_len(10_000), 10_000 + OVERHEAD);
/// assert_eq!(buffer_len(u64::MAX), usize::MAX);
/// ```
#[must_use]
pub const fn buffer_len(capacity: u64) -> usize {
    if capacity > usize::MAX as u64 {
        return usize::MAX;
    }
    (capacity as usize).saturating_add(OVERHEAD)
}

/// The length that suffices for
/// [`Package::write_types`](super::Package::write_types).
pub const TYPES_STREAM_MAX: usize = DECLARATION.len()
    + "<Types xmlns=\"http://schemas.openxmlformats.org/package/2006/content-types\">\n".len()
    + DEFAULTS_MAX
        * ("<Default Extension=\"\" ContentType=\"\"/>\n".len()
            + QUOTED * (EXTENSION_MAX + MEDIA_TYPE_MAX))
    + OVERRIDES_MAX
        * ("<Override PartName=\"\" ContentType=\"\"/>\n".len()
            + QUOTED * (PART_NAME_MAX + MEDIA_TYPE_MAX))
    + "</Types>\n".len();

/// The length that suffices for
/// [`Package::write_relationships`](super::Package::write_relationships). An
/// id has no `&`.
pub const RELATIONSHIPS_STREAM_MAX: usize = DECLARATION.len()
    + "<Relationships xmlns=\"http://schemas.openxmlformats.org/package/2006/relationships\">\n"
        .len()
    + RELATIONSHIPS_MAX
        * ("<Relationship Id=\"\" Type=\"\" Target=\"\" TargetMode=\"External\"/>\n".len()
            + ID_MAX
            + QUOTED * (IRI_MAX + IRI_MAX))
    + "</Relationships>\n".len();

const DECLARATION: &str = "<?xml version=\"1.0\" encoding=\"UTF-8\"?>\n";

/// The bytes that a byte of a value takes at most: `&` becomes `&amp;`.
const QUOTED: usize = "&amp;".len();
