//! Parts read as streams of bytes.

use super::Package;
use crate::Refusal;
use alloc::string::String;
use alloc::vec::Vec;
use core::fmt;
use std::io::{Error, ErrorKind, Read, Result, Seek, SeekFrom};

/// Reads the content of a part, from any place on. It comes with the feature
/// `std`.
///
/// ```
/// use std::io::{Read, Seek, SeekFrom};
/// use zombirels::package::PackageBuf;
/// let mut slide = PackageBuf::start(100)?;
/// slide.put_item("/t3/[0].piece", "hello ")?;
/// slide.put_item("/t3/[1].last.piece", "world")?;
///
/// let mut reader = slide.part_reader("/t3")?;
/// let mut word = String::new();
/// reader.seek(SeekFrom::End(-5))?;
/// reader.read_to_string(&mut word)?;
/// assert_eq!(word, "world");
/// # Ok::<(), Box<dyn std::error::Error>>(())
/// ```
#[derive(Clone)]
pub struct PartReader<'a> {
    package: &'a Package,
    name: Vec<u8>,
    length: usize,
    position: u64,
}

impl Package {
    /// A reader of a part's content, from its first byte on. It comes with the
    /// feature `std`.
    ///
    /// # Errors
    ///
    /// As [`Package::read_part`].
    pub fn part_reader(
        &self,
        name: impl AsRef<[u8]>,
    ) -> core::result::Result<PartReader<'_>, Refusal> {
        let name = name.as_ref();
        let length = self.part_len(name)?;
        Ok(PartReader::new(self, name, length))
    }
}

impl<'a> PartReader<'a> {
    pub(super) fn new(package: &'a Package, name: &[u8], length: usize) -> PartReader<'a> {
        PartReader {
            package,
            name: name.to_vec(),
            length,
            position: 0,
        }
    }

    /// The length of the content, wherever the reader is.
    #[must_use]
    pub fn len(&self) -> usize {
        self.length
    }

    /// Whether the content has no bytes.
    #[must_use]
    pub fn is_empty(&self) -> bool {
        self.length == 0
    }

    /// The offset of the byte that is read next.
    #[must_use]
    pub fn position(&self) -> u64 {
        self.position
    }
}

/// Shows where it is, not the bytes.
impl fmt::Debug for PartReader<'_> {
    fn fmt(&self, f: &mut fmt::Formatter<'_>) -> fmt::Result {
        f.debug_struct("PartReader")
            .field("name", &String::from_utf8_lossy(&self.name))
            .field("length", &self.length)
            .field("position", &self.position)
            .finish_non_exhaustive()
    }
}

/// Past the end no bytes are read.
impl Read for PartReader<'_> {
    fn read(&mut self, out: &mut [u8]) -> Result<usize> {
        let length = self.package.read_part(&self.name, self.position, out)?;
        self.position += length as u64;
        Ok(length)
    }
}

/// It can go past the end, but not before the start.
impl Seek for PartReader<'_> {
    fn seek(&mut self, to: SeekFrom) -> Result<u64> {
        let position = match to {
            SeekFrom::Start(offset) => Some(offset),
            SeekFrom::End(offset) => (self.length as u64).checked_add_signed(offset),
            SeekFrom::Current(offset) => self.position.checked_add_signed(offset),
        };
        let nowhere = || {
            Error::new(
                ErrorKind::InvalidInput,
                "the place is below 0, or too large",
            )
        };
        self.position = position.ok_or_else(nowhere)?;
        Ok(self.position)
    }

    fn stream_position(&mut self) -> Result<u64> {
        Ok(self.position)
    }
}
