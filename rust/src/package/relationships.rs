//! Relationships and what they lead to.

use super::{Mode, Package};
use crate::ffi;
use crate::iri::PACK_IRI_MAX;
use crate::lent::{self, change_two};
use crate::owned;
use crate::Refusal;
use alloc::string::String;

/// What [`Package::resolve_relationship`] answers.
#[derive(Clone, Copy, Debug, PartialEq, Eq, Hash)]
pub struct Resolved {
    /// How many bytes of the output are the IRI.
    pub length: usize,
    /// Internal: the IRI is the pack IRI of a part name.
    pub mode: Mode,
    /// Whether that part is held: not of pieces that are no part yet, and never
    /// of an external target.
    pub held: bool,
}

impl Resolved {
    /// From the three values of the archive's answer.
    pub(crate) fn from_values([length, mode, held]: [usize; 3]) -> Resolved {
        assert!(held <= 1, "held or not");
        Resolved {
            length,
            mode: Mode::try_from(mode as u64).expect("the archive has two modes"),
            held: held == 1,
        }
    }
}

/// What [`Package::resolve_relationship_to_string`] answers.
#[derive(Clone, Debug, PartialEq, Eq, Hash)]
pub struct ResolvedIri {
    /// The IRI.
    pub iri: String,
    /// Internal: the IRI is the pack IRI of a part name.
    pub mode: Mode,
    /// Whether that part is held: not of pieces that are no part yet, and never
    /// of an external target.
    pub held: bool,
}

impl Package {
    /// Holds a relationship: from `source`, which is a part name or `/` for
    /// the package, to `target`; `kind` is its type, an IRI with a scheme. An
    /// internal target is resolved against the source, and must give a part
    /// name; that part need not be held.
    ///
    /// # Errors
    ///
    /// [`Refusal::NotAPackage`]; [`Refusal::NotAPartName`] or
    /// [`Refusal::Reserved`] for the source;
    /// [`Refusal::BadRelationshipField`] for the id or the type;
    /// [`Refusal::BadTarget`] for the target, or [`Refusal::Reserved`] if it
    /// leads to a reserved name; [`Refusal::Taken`] if an equivalent source
    /// has that very id; [`Refusal::Full`].
    ///
    /// ```
    /// use zombirels::package::{Mode, PackageBuf};
    /// use zombirels::Refusal;
    /// let mut slide = PackageBuf::start(200)?;
    /// let (source, kind) = ("/left/t3.tiff", "http://example.com/mask");
    /// slide.put_relationship(source, "m1", kind, Mode::Internal, "../mask")?;
    /// slide.put_relationship(source, "M1", kind, Mode::External, "#t3")?;
    /// let reserved = slide.put_relationship("/", "r", kind, Mode::Internal, "_rels/.rels");
    /// assert_eq!(reserved, Err(Refusal::Reserved));
    /// let outside = slide.put_relationship("/", "r", kind, Mode::Internal, "a#t3");
    /// assert_eq!(outside, Err(Refusal::BadTarget));
    /// # Ok::<(), Refusal>(())
    /// ```
    pub fn put_relationship(
        &mut self,
        source: impl AsRef<[u8]>,
        id: impl AsRef<[u8]>,
        kind: impl AsRef<[u8]>,
        mode: Mode,
        target: impl AsRef<[u8]>,
    ) -> Result<(), Refusal> {
        let texts = [source.as_ref(), id.as_ref(), kind.as_ref(), target.as_ref()];
        lent::put_relationship(&mut self.0, texts, mode.number()).done()
    }

    /// Drops the relationship of an equivalent source with that very id. Its
    /// charge is free again.
    ///
    /// # Errors
    ///
    /// [`Refusal::NotAPackage`]; [`Refusal::NotAPartName`] or
    /// [`Refusal::Reserved`] for the source;
    /// [`Refusal::BadRelationshipField`] for the id; [`Refusal::NotHeld`].
    ///
    /// ```
    /// use zombirels::package::{Mode, PackageBuf};
    /// use zombirels::Refusal;
    /// let mut slide = PackageBuf::start(100)?;
    /// slide.put_relationship("/t3", "m1", "a:mask", Mode::Internal, "m")?;
    /// let other = slide.drop_relationship("/t3", "M1");
    /// assert_eq!(other, Err(Refusal::NotHeld));
    /// assert_eq!(slide.drop_relationship("/T3", "m1"), Ok(()));
    /// # Ok::<(), Refusal>(())
    /// ```
    pub fn drop_relationship(
        &mut self,
        source: impl AsRef<[u8]>,
        id: impl AsRef<[u8]>,
    ) -> Result<(), Refusal> {
        let (source, id) = (source.as_ref(), id.as_ref());
        change_two(ffi::opc_drop_relationship, &mut self.0, source, id).done()
    }

    /// Writes the IRI that a relationship leads to, in a package whose IRI is
    /// `base`: internal, the pack IRI of the target's part name; external, the
    /// target resolved against `base` without its fragment. [`PACK_IRI_MAX`]
    /// bytes always suffice; what stood past the written ones is kept.
    ///
    /// # Errors
    ///
    /// [`Refusal::NotAPackage`]; [`Refusal::NotAPartName`] or
    /// [`Refusal::Reserved`] for the source;
    /// [`Refusal::BadRelationshipField`] for the id; [`Refusal::BadTarget`] if
    /// `base` is no package IRI; [`Refusal::NotHeld`] if no equivalent source
    /// has that very id; [`Refusal::OutputTooShort`].
    ///
    /// ```
    /// use zombirels::package::{Mode, PackageBuf, Resolved};
    /// use zombirels::Refusal;
    /// let mut slide = PackageBuf::start(200)?;
    /// slide.put_item("/left/mask", "")?;
    /// slide.put_relationship("/Left/t3", "m1", "a:mask", Mode::Internal, "mask")?;
    /// slide.put_relationship("/Left/t3", "c1", "a:case", Mode::External, "case#17")?;
    ///
    /// let (base, mut out) = ("http://example.com/slide.opc", [0; 100]);
    /// let mask = slide.resolve_relationship("/left/t3", "m1", base, &mut out)?;
    /// let iri = b"pack://http%3A,,example.com,slide.opc/Left/mask";
    /// assert_eq!(&out[..mask.length], iri);
    /// let expected = Resolved { length: iri.len(), mode: Mode::Internal, held: true };
    /// assert_eq!(mask, expected);
    ///
    /// let case = slide.resolve_relationship("/left/t3", "c1", base, &mut out)?;
    /// assert_eq!(&out[..case.length], b"http://example.com/case#17");
    /// assert_eq!((case.mode, case.held), (Mode::External, false));
    /// # Ok::<(), Refusal>(())
    /// ```
    pub fn resolve_relationship(
        &self,
        source: impl AsRef<[u8]>,
        id: impl AsRef<[u8]>,
        base: impl AsRef<[u8]>,
        out: &mut [u8],
    ) -> Result<Resolved, Refusal> {
        self.resolve([source.as_ref(), id.as_ref(), base.as_ref()], out)
    }

    /// The IRI that a relationship leads to, in a package whose IRI is `base`.
    ///
    /// # Errors
    ///
    /// As [`Package::resolve_relationship`], but for the output;
    /// [`Refusal::NotAPackage`] if it is no text.
    ///
    /// ```
    /// use zombirels::package::{Mode, PackageBuf};
    /// let mut slide = PackageBuf::start(200)?;
    /// slide.put_relationship("/t3", "m1", "a:mask", Mode::Internal, "mask")?;
    /// for link in slide.relationships()? {
    ///     let base = "http://h/s.opc";
    ///     let target = slide.resolve_relationship_to_string(&link.source, &link.id, base)?;
    ///     assert_eq!(target.iri, "pack://http%3A,,h,s.opc/mask");
    ///     assert!(!target.held);
    /// }
    /// # Ok::<(), zombirels::Refusal>(())
    /// ```
    pub fn resolve_relationship_to_string(
        &self,
        source: impl AsRef<[u8]>,
        id: impl AsRef<[u8]>,
        base: impl AsRef<[u8]>,
    ) -> Result<ResolvedIri, Refusal> {
        self.resolved([source.as_ref(), id.as_ref(), base.as_ref()])
    }

    fn resolve(&self, texts: [&[u8]; 3], out: &mut [u8]) -> Result<Resolved, Refusal> {
        let reply = lent::resolve_relationship(&self.0, texts, out);
        reply.values().map(Resolved::from_values)
    }

    fn resolved(&self, texts: [&[u8]; 3]) -> Result<ResolvedIri, Refusal> {
        let (mut mode, mut held) = (Mode::Internal, false);
        let iri = owned::to_string(PACK_IRI_MAX, |out| {
            let resolved = self.resolve(texts, out)?;
            (mode, held) = (resolved.mode, resolved.held);
            Ok(resolved.length)
        })?;
        Ok(ResolvedIri { iri, mode, held })
    }
}
