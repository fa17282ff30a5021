//! The XML streams, written and read.

use super::{Package, RELATIONSHIPS_STREAM_MAX, TYPES_STREAM_MAX};
use crate::ffi;
use crate::lent::{change, change_two, write, write_two};
use crate::owned;
use crate::Refusal;
use alloc::string::String;

impl Package {
    /// Writes the Media Types stream, the Defaults and then the Overrides in
    /// folded order, and answers its length. Values stand as they were given,
    /// `&` as `&amp;`. If `out` is too short, the refusal carries the length
    /// that is needed; [`TYPES_STREAM_MAX`] bytes always suffice.
    ///
    /// # Errors
    ///
    /// [`Refusal::NotAPackage`]; [`Refusal::NotHeld`] in bytes alone that no
    /// calls made, whose entries have more bytes than they say are in use;
    /// [`Refusal::OutputTooShort`].
    ///
    /// ```
    /// use zombirels::package::{PackageBuf, TYPES_STREAM_MAX};
    /// let mut slide = PackageBuf::start(100)?;
    /// slide.put_default("tiff", "image/tiff")?;
    /// let mut out = vec![0; TYPES_STREAM_MAX];
    /// let length = slide.write_types(&mut out)?;
    /// assert!(out[..length].ends_with(b"</Types>\n"));
    /// # Ok::<(), zombirels::Refusal>(())
    /// ```
    pub fn write_types(&self, out: &mut [u8]) -> Result<usize, Refusal> {
        write(ffi::opc_write_types, &self.0, out).value()
    }

    /// The Media Types stream.
    ///
    /// # Errors
    ///
    /// As [`Package::write_types`], but for the output;
    /// [`Refusal::NotAPackage`] if it is no text.
    ///
    /// ```
    /// use zombirels::package::PackageBuf;
    /// let mut slide = PackageBuf::start(100)?;
    /// slide.put_override("/R&D.xml", "text/xml")?;
    /// slide.put_default("tiff", "image/tiff;page=2")?;
    /// let types = slide.write_types_to_string()?;
    /// let lines: Vec<&str> = types.lines().collect();
    /// assert_eq!(lines[0], r#"<?xml version="1.0" encoding="UTF-8"?>"#);
    /// assert_eq!(lines[2], r#"<Default Extension="tiff" ContentType="image/tiff;page=2"/>"#);
    /// assert_eq!(lines[3], r#"<Override PartName="/R&amp;D.xml" ContentType="text/xml"/>"#);
    /// assert_eq!(lines[4], "</Types>");
    /// # Ok::<(), zombirels::Refusal>(())
    /// ```
    pub fn write_types_to_string(&self) -> Result<String, Refusal> {
        owned::to_string(TYPES_STREAM_MAX, |out| self.write_types(out))
    }

    /// Writes the Relationships part of a source, its relationships by id, and
    /// answers its length. A source without relationships, held or not, gets
    /// no entry lines. If `out` is too short, the refusal carries the length
    /// that is needed; [`RELATIONSHIPS_STREAM_MAX`] bytes always suffice.
    ///
    /// # Errors
    ///
    /// [`Refusal::NotAPackage`]; [`Refusal::NotAPartName`] or
    /// [`Refusal::Reserved`] for the source; [`Refusal::NotHeld`] as
    /// [`Package::write_types`]; [`Refusal::OutputTooShort`].
    ///
    /// ```
    /// use zombirels::package::PackageBuf;
    /// use zombirels::Refusal;
    /// let slide = PackageBuf::start(100)?;
    /// let Err(Refusal::OutputTooShort { needed }) = slide.write_relationships("/", &mut []) else {
    ///     panic!("no output");
    /// };
    /// let mut out = vec![0; needed];
    /// assert_eq!(slide.write_relationships("/", &mut out)?, needed);
    /// # Ok::<(), Refusal>(())
    /// ```
    pub fn write_relationships(
        &self,
        source: impl AsRef<[u8]>,
        out: &mut [u8],
    ) -> Result<usize, Refusal> {
        write_two(ffi::opc_write_relationships, &self.0, source.as_ref(), out).value()
    }

    /// The Relationships part of a source.
    ///
    /// # Errors
    ///
    /// As [`Package::write_relationships`], but for the output;
    /// [`Refusal::NotAPackage`] if it is no text.
    ///
    /// ```
    /// use zombirels::package::{Mode, PackageBuf};
    /// let mut slide = PackageBuf::start(100)?;
    /// slide.put_relationship("/t3", "m2", "a:page", Mode::External, "b:c")?;
    /// slide.put_relationship("/T3", "m1", "a:mask", Mode::Internal, "m")?;
    /// let stream = slide.write_relationships_to_string("/t3")?;
    /// let lines: Vec<&str> = stream.lines().collect();
    /// assert_eq!(lines[2], r#"<Relationship Id="m1" Type="a:mask" Target="m"/>"#);
    /// assert_eq!(
    ///     lines[3],
    ///     r#"<Relationship Id="m2" Type="a:page" Target="b:c" TargetMode="External"/>"#
    /// );
    /// assert_eq!(lines[4], "</Relationships>");
    /// # Ok::<(), zombirels::Refusal>(())
    /// ```
    pub fn write_relationships_to_string(
        &self,
        source: impl AsRef<[u8]>,
    ) -> Result<String, Refusal> {
        let source = source.as_ref();
        owned::to_string(RELATIONSHIPS_STREAM_MAX, |out| {
            self.write_relationships(source, out)
        })
    }

    /// Reads a Media Types stream and holds all its Defaults and Overrides, or
    /// none. Each is put in the stream's order, as
    /// [`put_default`](Package::put_default) and
    /// [`put_override`](Package::put_override) do; the first that is refused
    /// tells why. Which streams are accepted is told
    /// [above](crate::package#streams-that-are-read).
    ///
    /// # Errors
    ///
    /// [`Refusal::NotAPackage`]; [`Refusal::TooDeep`] or
    /// [`Refusal::MalformedStream`], whichever the stream comes to first; then
    /// those of the first entry that is refused: [`Refusal::NotAPartName`] for
    /// the name of an Override, [`Refusal::BadType`], [`Refusal::Taken`],
    /// [`Refusal::Full`].
    ///
    /// ```
    /// use zombirels::package::PackageBuf;
    /// use zombirels::Refusal;
    /// let stream = r#"<Types xmlns="http://schemas.openxmlformats.org/package/2006/content-types">
    ///     <Override ContentType='text/xml' PartName='/R&amp;D.xml'></Override>
    ///     <!-- for all tiles --> <Default Extension="tiff" ContentType="image/tiff"/>
    /// </Types>"#;
    ///
    /// let mut slide = PackageBuf::start(100)?;
    /// slide.read_types(stream)?;
    /// slide.put_item("/t3.TIFF", "tile")?;
    /// assert_eq!(slide.media_type_to_string("/t3.TIFF")?, "image/tiff");
    /// assert_eq!(slide.overrides()?.next().unwrap().name, "/R&D.xml");
    ///
    /// assert_eq!(slide.read_types(stream), Err(Refusal::Taken));
    /// slide.drop_override("/R&D.xml")?;
    /// assert_eq!(slide.read_types(stream), Err(Refusal::Taken));
    /// assert_eq!(slide.overrides()?.len(), 0);
    /// assert_eq!(slide.read_types("<Types/>"), Err(Refusal::MalformedStream));
    /// # Ok::<(), Refusal>(())
    /// ```
    pub fn read_types(&mut self, stream: impl AsRef<[u8]>) -> Result<(), Refusal> {
        change(ffi::opc_read_types, &mut self.0, stream.as_ref()).done()
    }

    /// Reads the Relationships part of a source and holds all its
    /// relationships, or none. Each is put in the stream's order, as
    /// [`put_relationship`](Package::put_relationship) does, with the source as
    /// it is spelled here; the first that is refused tells why. Which streams
    /// are accepted is told [above](crate::package#streams-that-are-read).
    ///
    /// # Errors
    ///
    /// [`Refusal::NotAPackage`]; [`Refusal::NotAPartName`] or
    /// [`Refusal::Reserved`] for the source; [`Refusal::TooDeep`] or
    /// [`Refusal::MalformedStream`], whichever the stream comes to first; then
    /// those of the first entry that is refused:
    /// [`Refusal::BadRelationshipField`] for the id, the type or the mode,
    /// [`Refusal::BadTarget`], [`Refusal::Reserved`], [`Refusal::Taken`],
    /// [`Refusal::Full`].
    ///
    /// ```
    /// use zombirels::package::{Mode, PackageBuf};
    /// use zombirels::Refusal;
    /// let mut slide = PackageBuf::start(200)?;
    /// slide.put_relationship("/t3", "m1", "a:mask", Mode::Internal, "m")?;
    /// slide.put_relationship("/t3", "m2", "a:page", Mode::External, "b:c?d&e")?;
    /// let stream = slide.write_relationships_to_string("/t3")?;
    ///
    /// let mut other = PackageBuf::start(200)?;
    /// other.read_relationships("/T3", &stream)?;
    /// let links: Vec<_> = other.relationships_of("/t3")?.collect();
    /// assert_eq!((&links[0].source[..], &links[0].target[..]), ("/T3", "m"));
    /// assert_eq!((links[1].mode, &links[1].target[..]), (Mode::External, "b:c?d&e"));
    /// assert_eq!(other.write_relationships_to_string("/t3")?, stream);
    ///
    /// let none = other.read_relationships("/t4", stream.replace("External", "?"));
    /// assert_eq!(none, Err(Refusal::BadRelationshipField));
    /// assert_eq!(other.relationships()?.len(), 2);
    /// # Ok::<(), Refusal>(())
    /// ```
    pub fn read_relationships(
        &mut self,
        source: impl AsRef<[u8]>,
        stream: impl AsRef<[u8]>,
    ) -> Result<(), Refusal> {
        let (source, stream) = (source.as_ref(), stream.as_ref());
        change_two(ffi::opc_read_relationships, &mut self.0, source, stream).done()
    }
}
