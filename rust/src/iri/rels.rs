//! The names of Relationships parts.

use crate::ffi;
use crate::lent::write;
use crate::names::PART_NAME_MAX;
use crate::owned;
use crate::Refusal;
use alloc::string::String;

/// The length that suffices for [`relationships_part`].
pub const RELATIONSHIPS_PART_MAX: usize = PART_NAME_MAX + "/_rels".len() + ".rels".len();

/// The length that suffices for [`source_of_relationships_part`].
pub const SOURCE_MAX: usize = PART_NAME_MAX;

/// Writes the name of the Relationships part of a source, which is `/` for
/// the package or a part name. [`RELATIONSHIPS_PART_MAX`] bytes always suffice.
///
/// # Errors
///
/// [`Refusal::NotAPartName`] or [`Refusal::Reserved`] for the source;
/// [`Refusal::OutputTooShort`].
///
/// ```
/// use zombirels::iri::{relationships_part, RELATIONSHIPS_PART_MAX};
/// let mut out = [0; RELATIONSHIPS_PART_MAX];
/// let length = relationships_part("/foo/bar.xml", &mut out).unwrap();
/// assert_eq!(&out[..length], b"/foo/_rels/bar.xml.rels");
/// ```
pub fn relationships_part(source: impl AsRef<[u8]>, out: &mut [u8]) -> Result<usize, Refusal> {
    write(ffi::opc_relationships_part, source.as_ref(), out).value()
}

/// The name of the Relationships part of a source.
///
/// # Errors
///
/// As [`relationships_part`], but for the output.
///
/// ```
/// use zombirels::iri::relationships_part_to_string;
/// assert_eq!(relationships_part_to_string("/")?, "/_rels/.rels");
/// # Ok::<(), zombirels::Refusal>(())
/// ```
pub fn relationships_part_to_string(source: impl AsRef<[u8]>) -> Result<String, Refusal> {
    let source = source.as_ref();
    owned::to_string(RELATIONSHIPS_PART_MAX, |out| {
        relationships_part(source, out)
    })
}

/// Writes the source whose Relationships part `name` is; `_rels` and `.rels`
/// stand in either case. [`SOURCE_MAX`] bytes always suffice.
///
/// # Errors
///
/// [`Refusal::NotAPartName`] if `name` is the Relationships part of no
/// source; [`Refusal::OutputTooShort`].
///
/// ```
/// use zombirels::iri::{source_of_relationships_part, SOURCE_MAX};
/// let mut out = [0; SOURCE_MAX];
/// let length = source_of_relationships_part("/_rels/.rels", &mut out).unwrap();
/// assert_eq!(&out[..length], b"/");
/// ```
pub fn source_of_relationships_part(
    name: impl AsRef<[u8]>,
    out: &mut [u8],
) -> Result<usize, Refusal> {
    write(ffi::opc_source_of_relationships_part, name.as_ref(), out).value()
}

/// The source whose Relationships part `name` is.
///
/// # Errors
///
/// As [`source_of_relationships_part`], but for the output.
///
/// ```
/// use zombirels::iri::source_of_relationships_part_to_string;
/// let source = source_of_relationships_part_to_string("/foo/_RELS/bar.xml.rels")?;
/// assert_eq!(source, "/foo/bar.xml");
/// # Ok::<(), zombirels::Refusal>(())
/// ```
pub fn source_of_relationships_part_to_string(name: impl AsRef<[u8]>) -> Result<String, Refusal> {
    let name = name.as_ref();
    owned::to_string(SOURCE_MAX, |out| source_of_relationships_part(name, out))
}
