//! Pack IRIs.

use super::IRI_MAX;
use crate::ffi;
use crate::lent::{write, write_two};
use crate::names::PART_NAME_MAX;
use crate::owned;
use crate::Refusal;
use alloc::string::String;

/// The length that suffices for [`compose_pack_iri`]: `pack://`, the package
/// IRI with three bytes for each of its own, and the part name.
pub const PACK_IRI_MAX: usize = "pack://".len() + 3 * IRI_MAX + PART_NAME_MAX;

/// The length that suffices for [`resolve_pack_iri`].
pub const RESOLVED_PACK_IRI_MAX: usize = IRI_MAX + PART_NAME_MAX;

/// Composes the pack IRI of a part, or of the package if `name` is `/`. The
/// fragment of the package IRI is dropped. [`PACK_IRI_MAX`] bytes always
/// suffice.
///
/// # Errors
///
/// [`Refusal::BadTarget`] for the package IRI; [`Refusal::NotAPartName`];
/// [`Refusal::OutputTooShort`].
///
/// ```
/// use zombirels::iri::{compose_pack_iri, PACK_IRI_MAX};
/// let mut out = [0; PACK_IRI_MAX];
/// let package = "http://www.example.com/ex.opc";
/// let length = compose_pack_iri(package, "/foo/b.xml", &mut out).unwrap();
/// assert_eq!(&out[..length], b"pack://http%3A,,www.example.com,ex.opc/foo/b.xml");
/// ```
pub fn compose_pack_iri(
    package: impl AsRef<[u8]>,
    name: impl AsRef<[u8]>,
    out: &mut [u8],
) -> Result<usize, Refusal> {
    let (package, name) = (package.as_ref(), name.as_ref());
    write_two(ffi::opc_compose_pack_iri, package, name, out).value()
}

/// The pack IRI of a part, or of the package if `name` is `/`.
///
/// # Errors
///
/// As [`compose_pack_iri`], but for the output.
///
/// ```
/// use zombirels::iri::compose_pack_iri_to_string;
/// let iri = compose_pack_iri_to_string("http://h/p.opc", "/t3.tiff")?;
/// assert_eq!(iri, "pack://http%3A,,h,p.opc/t3.tiff");
/// # Ok::<(), zombirels::Refusal>(())
/// ```
pub fn compose_pack_iri_to_string(
    package: impl AsRef<[u8]>,
    name: impl AsRef<[u8]>,
) -> Result<String, Refusal> {
    let (package, name) = (package.as_ref(), name.as_ref());
    owned::to_string(PACK_IRI_MAX, |out| compose_pack_iri(package, name, out))
}

/// What [`resolve_pack_iri`] wrote: the package IRI, then the part name.
#[derive(Clone, Copy, Debug, PartialEq, Eq, Hash)]
pub struct PackLengths {
    /// The length of the package IRI.
    pub package: usize,
    /// The length of the part name, 0 if the package itself is meant.
    pub part: usize,
}

/// What a pack IRI leads to.
#[derive(Clone, Debug, PartialEq, Eq, Hash)]
pub struct PackAddress {
    /// The package IRI.
    pub package: String,
    /// The part name; none if the package itself is meant.
    pub part: Option<String>,
}

/// Resolves a pack IRI: writes the package IRI, directly followed by the part
/// name if there is one. [`RESOLVED_PACK_IRI_MAX`] bytes always suffice.
///
/// # Errors
///
/// [`Refusal::BadTarget`] if it is no pack IRI; [`Refusal::OutputTooShort`].
///
/// ```
/// use zombirels::iri::{resolve_pack_iri, RESOLVED_PACK_IRI_MAX};
/// let mut out = [0; RESOLVED_PACK_IRI_MAX];
/// let lengths = resolve_pack_iri("pack://http%3A,,h,p.opc/t3.tiff", &mut out).unwrap();
/// let (package, rest) = out.split_at(lengths.package);
/// assert_eq!(package, b"http://h/p.opc");
/// assert_eq!(&rest[..lengths.part], b"/t3.tiff");
/// ```
pub fn resolve_pack_iri(iri: impl AsRef<[u8]>, out: &mut [u8]) -> Result<PackLengths, Refusal> {
    let [package, part] = write(ffi::opc_resolve_pack_iri, iri.as_ref(), out).values()?;
    Ok(PackLengths { package, part })
}

/// The package IRI of a pack IRI, and the part name if there is one.
///
/// # Errors
///
/// As [`resolve_pack_iri`], but for the output.
///
/// ```
/// use zombirels::iri::resolve_pack_iri_to_string;
/// let tile = resolve_pack_iri_to_string("pack://http%3A,,h,p.opc/t3.tiff")?;
/// assert_eq!(tile.package, "http://h/p.opc");
/// assert_eq!(tile.part.as_deref(), Some("/t3.tiff"));
/// let slide = resolve_pack_iri_to_string("pack://http%3A,,h,p.opc")?;
/// assert_eq!(slide.part, None);
/// # Ok::<(), zombirels::Refusal>(())
/// ```
pub fn resolve_pack_iri_to_string(iri: impl AsRef<[u8]>) -> Result<PackAddress, Refusal> {
    let (iri, mut split) = (iri.as_ref(), 0);
    let mut both = owned::to_vec(RESOLVED_PACK_IRI_MAX, |out| {
        let lengths = resolve_pack_iri(iri, out)?;
        split = lengths.package;
        Ok(lengths.package + lengths.part)
    })?;
    let part = both.split_off(split);
    Ok(PackAddress {
        package: owned::text(both)?,
        part: match part.is_empty() {
            true => None,
            false => Some(owned::text(part)?),
        },
    })
}
