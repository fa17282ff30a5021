//! IRIs, targets of relationships, pack IRIs and Relationships parts.
//!
//! An IRI here has 1 to 255 bytes. The calls that write take the output as a
//! lent slice and answer how many bytes they wrote; what stood past these is
//! kept. If the output is too short, [`Refusal::OutputTooShort`] says how
//! many bytes are needed, and nothing is written. Beside each stands a call
//! that answers a `String`. The constants are the lengths that suffice.

mod pack;
mod rels;

pub use pack::{
    compose_pack_iri, compose_pack_iri_to_string, resolve_pack_iri, resolve_pack_iri_to_string,
    PackAddress, PackLengths, PACK_IRI_MAX, RESOLVED_PACK_IRI_MAX,
};
pub use rels::{
    relationships_part, relationships_part_to_string, source_of_relationships_part,
    source_of_relationships_part_to_string, RELATIONSHIPS_PART_MAX, SOURCE_MAX,
};

use crate::ffi;
use crate::lent::{ask, write_two};
use crate::names::PART_NAME_MAX;
use crate::owned;
use crate::Refusal;
use alloc::string::String;

/// How many bytes an IRI has at most.
pub const IRI_MAX: usize = 255;

/// The length that suffices for [`resolve_reference`]: those of both IRIs, and
/// a slash where the base has an authority and no path.
pub const RESOLVED_REFERENCE_MAX: usize = IRI_MAX + IRI_MAX + 1;

/// The length that suffices for [`resolve_target`], as for every part name.
pub const RESOLVED_TARGET_MAX: usize = PART_NAME_MAX;

/// Whether `text` is an IRI, with a scheme or without: segment characters,
/// triplets, `/`, `?` and at most one `#`.
///
/// ```
/// use zombirels::iri::is_iri;
/// assert!(is_iri("../tiles/t3.tiff#left"));
/// assert!(!is_iri("1a:b"));
/// ```
#[must_use]
pub fn is_iri(text: impl AsRef<[u8]>) -> bool {
    ask(ffi::opc_is_iri, text.as_ref())
}

/// Whether `text` can name a package: an IRI with a scheme.
#[must_use]
pub fn is_package_iri(text: impl AsRef<[u8]>) -> bool {
    ask(ffi::opc_is_package_iri, text.as_ref())
}

/// Resolves the reference of an external target against a package IRI, as
/// RFC 3986 5.2 does, and writes the resulting IRI. [`RESOLVED_REFERENCE_MAX`]
/// bytes always suffice.
///
/// # Errors
///
/// [`Refusal::BadTarget`] if `base` is no package IRI or `reference` no IRI;
/// [`Refusal::OutputTooShort`].
///
/// ```
/// use zombirels::iri::{resolve_reference, RESOLVED_REFERENCE_MAX};
/// let mut out = [0; RESOLVED_REFERENCE_MAX];
/// let base = "http://www.example.com/ex.opc";
/// let length = resolve_reference(base, "b.xml", &mut out).unwrap();
/// assert_eq!(&out[..length], b"http://www.example.com/b.xml");
/// ```
pub fn resolve_reference(
    base: impl AsRef<[u8]>,
    reference: impl AsRef<[u8]>,
    out: &mut [u8],
) -> Result<usize, Refusal> {
    let (base, reference) = (base.as_ref(), reference.as_ref());
    write_two(ffi::opc_resolve_reference, base, reference, out).value()
}

/// The IRI that a reference leads to from a package IRI.
///
/// # Errors
///
/// As [`resolve_reference`], but for the output.
///
/// ```
/// use zombirels::iri::resolve_reference_to_string;
/// let iri = resolve_reference_to_string("http://www.example.com/ex.opc", "b.xml")?;
/// assert_eq!(iri, "http://www.example.com/b.xml");
/// # Ok::<(), zombirels::Refusal>(())
/// ```
pub fn resolve_reference_to_string(
    base: impl AsRef<[u8]>,
    reference: impl AsRef<[u8]>,
) -> Result<String, Refusal> {
    let (base, reference) = (base.as_ref(), reference.as_ref());
    owned::to_string(RESOLVED_REFERENCE_MAX, |out| {
        resolve_reference(base, reference, out)
    })
}

/// Resolves an internal target from a source, which is `/` for the package or
/// a part name, and writes the name of the part that it leads to.
/// [`RESOLVED_TARGET_MAX`] bytes always suffice.
///
/// # Errors
///
/// [`Refusal::NotAPartName`] or [`Refusal::Reserved`] for the source;
/// [`Refusal::BadTarget`] if the target doesn't lead to a part name;
/// [`Refusal::Reserved`] if it leads to a reserved one;
/// [`Refusal::OutputTooShort`].
///
/// ```
/// use zombirels::iri::{resolve_target, RESOLVED_TARGET_MAX};
/// let mut out = [0; RESOLVED_TARGET_MAX];
/// let length = resolve_target("/a/b/c", "../../g", &mut out).unwrap();
/// assert_eq!(&out[..length], b"/g");
/// ```
pub fn resolve_target(
    source: impl AsRef<[u8]>,
    target: impl AsRef<[u8]>,
    out: &mut [u8],
) -> Result<usize, Refusal> {
    let (source, target) = (source.as_ref(), target.as_ref());
    write_two(ffi::opc_resolve_target, source, target, out).value()
}

/// The name of the part that an internal target leads to from a source.
///
/// # Errors
///
/// As [`resolve_target`], but for the output.
///
/// ```
/// use zombirels::iri::resolve_target_to_string;
/// assert_eq!(resolve_target_to_string("/a/b/c", "../../g")?, "/g");
/// # Ok::<(), zombirels::Refusal>(())
/// ```
pub fn resolve_target_to_string(
    source: impl AsRef<[u8]>,
    target: impl AsRef<[u8]>,
) -> Result<String, Refusal> {
    let (source, target) = (source.as_ref(), target.as_ref());
    owned::to_string(RESOLVED_TARGET_MAX, |out| {
        resolve_target(source, target, out)
    })
}
