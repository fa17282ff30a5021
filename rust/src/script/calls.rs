//! The calls that a script takes.

use super::{Code, Script};
use crate::package::Mode;
#[cfg(doc)]
use crate::package::Package;

/// The calls, by the names of [`Package`]'s.
impl Script {
    /// [`Package::restart`]: empties the package, or makes one.
    pub fn start(&mut self, capacity: u64) -> &mut Script {
        self.call(Code::Start, [b"", b"", b"", b""], capacity, 0)
    }

    /// [`Package::put_item`].
    pub fn put_item(&mut self, name: impl AsRef<[u8]>, bytes: impl AsRef<[u8]>) -> &mut Script {
        self.call(
            Code::PutItem,
            [name.as_ref(), bytes.as_ref(), b"", b""],
            0,
            0,
        )
    }

    /// [`Package::drop_item`].
    pub fn drop_item(&mut self, name: impl AsRef<[u8]>) -> &mut Script {
        self.call(Code::DropItem, [name.as_ref(), b"", b"", b""], 0, 0)
    }

    /// [`Package::find_item`].
    pub fn find_item(&mut self, name: impl AsRef<[u8]>) -> &mut Script {
        self.call(Code::FindItem, [name.as_ref(), b"", b"", b""], 0, 0)
    }

    /// [`Package::view_item`], whose bytes are copied: as many as `length`
    /// takes. The value that is answered is the length of the item.
    pub fn view_item(&mut self, name: impl AsRef<[u8]>, length: usize) -> &mut Script {
        self.call(Code::ViewItem, [name.as_ref(), b"", b"", b""], 0, length)
    }

    /// [`Package::read_part`].
    pub fn read_part(&mut self, name: impl AsRef<[u8]>, offset: u64, length: usize) -> &mut Script {
        self.call(
            Code::ReadPart,
            [name.as_ref(), b"", b"", b""],
            offset,
            length,
        )
    }

    /// [`Package::cut_part`].
    ///
    /// ```
    /// use zombirels::package::{Cut, PackageBuf};
    /// use zombirels::script::Script;
    /// let mut script = Script::new();
    /// script.put_item("/t3", "0123456789").cut_part("/t3", 4);
    /// script.view_item("/t3/[3].last.piece", 8);
    ///
    /// let mut slide = PackageBuf::start(100)?;
    /// let run = slide.run_to_buf(&script);
    /// let answers: Vec<_> = run.answers().collect();
    /// assert_eq!(answers[1].cut(), Ok(Cut { size: 2, longer: 2 }));
    /// assert_eq!(answers[2].output(), Ok(&b"89"[..]));
    /// # Ok::<(), zombirels::Refusal>(())
    /// ```
    pub fn cut_part(&mut self, name: impl AsRef<[u8]>, pieces: u64) -> &mut Script {
        self.call(Code::CutPart, [name.as_ref(), b"", b"", b""], pieces, 0)
    }

    /// [`Package::join_part`].
    ///
    /// ```
    /// use zombirels::package::PackageBuf;
    /// use zombirels::script::Script;
    /// use zombirels::Refusal;
    /// let mut script = Script::new();
    /// script.put_item("/t3/[0].last.piece", "tile");
    /// script.join_part("/t3").view_item("/t3", 8).join_part("/t3");
    ///
    /// let mut slide = PackageBuf::start(100)?;
    /// let run = slide.run_to_buf(&script);
    /// let answers: Vec<_> = run.answers().collect();
    /// assert_eq!(answers[1].done(), Ok(()));
    /// assert_eq!(answers[2].output(), Ok(&b"tile"[..]));
    /// assert_eq!(answers[3].done(), Err(Refusal::WrongForm));
    /// # Ok::<(), Refusal>(())
    /// ```
    pub fn join_part(&mut self, name: impl AsRef<[u8]>) -> &mut Script {
        self.call(Code::JoinPart, [name.as_ref(), b"", b"", b""], 0, 0)
    }

    /// [`Package::part_at`].
    pub fn part_at(&mut self, position: u64, length: usize) -> &mut Script {
        self.call(Code::PartAt, [b"", b"", b"", b""], position, length)
    }

    /// [`Package::totals`].
    pub fn totals(&mut self) -> &mut Script {
        self.call(Code::Totals, [b"", b"", b"", b""], 0, 0)
    }

    /// [`Package::put_default`].
    pub fn put_default(
        &mut self,
        extension: impl AsRef<[u8]>,
        media_type: impl AsRef<[u8]>,
    ) -> &mut Script {
        self.call(
            Code::PutDefault,
            [extension.as_ref(), media_type.as_ref(), b"", b""],
            0,
            0,
        )
    }

    /// [`Package::drop_default`].
    pub fn drop_default(&mut self, extension: impl AsRef<[u8]>) -> &mut Script {
        self.call(Code::DropDefault, [extension.as_ref(), b"", b"", b""], 0, 0)
    }

    /// [`Package::put_override`].
    pub fn put_override(
        &mut self,
        name: impl AsRef<[u8]>,
        media_type: impl AsRef<[u8]>,
    ) -> &mut Script {
        self.call(
            Code::PutOverride,
            [name.as_ref(), media_type.as_ref(), b"", b""],
            0,
            0,
        )
    }

    /// [`Package::drop_override`].
    pub fn drop_override(&mut self, name: impl AsRef<[u8]>) -> &mut Script {
        self.call(Code::DropOverride, [name.as_ref(), b"", b"", b""], 0, 0)
    }

    /// [`Package::media_type`].
    pub fn media_type(&mut self, name: impl AsRef<[u8]>, length: usize) -> &mut Script {
        self.call(Code::MediaType, [name.as_ref(), b"", b"", b""], 0, length)
    }

    /// [`Package::type_origin`].
    pub fn type_origin(&mut self, name: impl AsRef<[u8]>, length: usize) -> &mut Script {
        self.call(Code::TypeOrigin, [name.as_ref(), b"", b"", b""], 0, length)
    }

    /// [`Package::put_relationship`].
    pub fn put_relationship(
        &mut self,
        source: impl AsRef<[u8]>,
        id: impl AsRef<[u8]>,
        kind: impl AsRef<[u8]>,
        mode: Mode,
        target: impl AsRef<[u8]>,
    ) -> &mut Script {
        let texts = [source.as_ref(), id.as_ref(), kind.as_ref(), target.as_ref()];
        self.call(Code::PutRelationship, texts, mode.number(), 0)
    }

    /// [`Package::drop_relationship`].
    pub fn drop_relationship(
        &mut self,
        source: impl AsRef<[u8]>,
        id: impl AsRef<[u8]>,
    ) -> &mut Script {
        self.call(
            Code::DropRelationship,
            [source.as_ref(), id.as_ref(), b"", b""],
            0,
            0,
        )
    }

    /// [`Package::resolve_relationship`].
    pub fn resolve_relationship(
        &mut self,
        source: impl AsRef<[u8]>,
        id: impl AsRef<[u8]>,
        base: impl AsRef<[u8]>,
        length: usize,
    ) -> &mut Script {
        let texts = [source.as_ref(), id.as_ref(), base.as_ref(), b""];
        self.call(Code::ResolveRelationship, texts, 0, length)
    }

    /// [`Package::write_types`].
    pub fn write_types(&mut self, length: usize) -> &mut Script {
        self.call(Code::WriteTypes, [b"", b"", b"", b""], 0, length)
    }

    /// [`Package::write_relationships`].
    pub fn write_relationships(&mut self, source: impl AsRef<[u8]>, length: usize) -> &mut Script {
        self.call(
            Code::WriteRelationships,
            [source.as_ref(), b"", b"", b""],
            0,
            length,
        )
    }

    /// [`Package::read_types`].
    ///
    /// ```
    /// use zombirels::package::PackageBuf;
    /// use zombirels::script::Script;
    /// use zombirels::Refusal;
    /// let mut slide = PackageBuf::start(100)?;
    /// slide.put_default("tiff", "image/tiff")?;
    /// let stream = slide.write_types_to_string()?;
    /// let mut script = Script::new();
    /// script.start(100).read_types(&stream).read_types(&stream).totals();
    ///
    /// let run = slide.run_to_buf(&script);
    /// let answers: Vec<_> = run.answers().collect();
    /// assert_eq!(answers[1].done(), Ok(()));
    /// assert_eq!(answers[2].done(), Err(Refusal::Taken));
    /// assert_eq!(answers[3].totals()?.charge, 14);
    /// # Ok::<(), Refusal>(())
    /// ```
    pub fn read_types(&mut self, stream: impl AsRef<[u8]>) -> &mut Script {
        self.call(Code::ReadTypes, [stream.as_ref(), b"", b"", b""], 0, 0)
    }

    /// [`Package::read_relationships`].
    pub fn read_relationships(
        &mut self,
        source: impl AsRef<[u8]>,
        stream: impl AsRef<[u8]>,
    ) -> &mut Script {
        self.call(
            Code::ReadRelationships,
            [source.as_ref(), stream.as_ref(), b"", b""],
            0,
            0,
        )
    }
}
