//! Parts: read, measured, listed by position.

use super::Package;
use crate::lent;
use crate::names::PART_NAME_MAX;
use crate::owned;
use crate::Refusal;
use alloc::string::String;
use alloc::vec::Vec;
use core::fmt::Write;

impl Package {
    /// Copies the content of a part from `offset` on, as much as `out` takes,
    /// and answers how many bytes that were. What stood past these is kept.
    ///
    /// # Errors
    ///
    /// [`Refusal::NotAPackage`]; [`Refusal::NotAPartName`];
    /// [`Refusal::NotHeld`] if no items make that part, or not yet.
    ///
    /// ```
    /// use zombirels::package::PackageBuf;
    /// use zombirels::Refusal;
    /// let mut slide = PackageBuf::start(100)?;
    /// slide.put_item("/t3/[0].piece", "abc")?;
    /// let mut out = [0; 4];
    /// assert_eq!(slide.read_part("/t3", 0, &mut out), Err(Refusal::NotHeld));
    /// slide.put_item("/t3/[1].last.piece", "def")?;
    /// assert_eq!(slide.read_part("/t3", 0, &mut out), Ok(4));
    /// assert_eq!(&out, b"abcd");
    /// assert_eq!(slide.read_part("/t3", 4, &mut out), Ok(2));
    /// assert_eq!(&out, b"efcd");
    /// # Ok::<(), Refusal>(())
    /// ```
    pub fn read_part(
        &self,
        name: impl AsRef<[u8]>,
        offset: u64,
        out: &mut [u8],
    ) -> Result<usize, Refusal> {
        lent::read_part(&self.0, name.as_ref(), offset, out).value()
    }

    /// The whole content of a part.
    ///
    /// # Errors
    ///
    /// As [`Package::read_part`].
    ///
    /// ```
    /// use zombirels::package::PackageBuf;
    /// let mut slide = PackageBuf::start(100)?;
    /// slide.put_item("/t3/[1].last.piece", "def")?;
    /// slide.put_item("/t3/[0].piece", "abc")?;
    /// assert_eq!(slide.read_part_to_vec("/t3")?, b"abcdef");
    /// # Ok::<(), zombirels::Refusal>(())
    /// ```
    pub fn read_part_to_vec(&self, name: impl AsRef<[u8]>) -> Result<Vec<u8>, Refusal> {
        self.content(name.as_ref())
    }

    fn content(&self, name: &[u8]) -> Result<Vec<u8>, Refusal> {
        let length = self.length(name)?;
        if length > self.0.len() {
            return Err(Refusal::NotAPackage); // rows that share their bytes
        }
        owned::to_vec(length, |out| self.read_part(name, 0, out))
    }

    /// The length of a part's content.
    ///
    /// # Errors
    ///
    /// As [`Package::read_part`].
    ///
    /// ```
    /// use zombirels::package::PackageBuf;
    /// use zombirels::Refusal;
    /// let mut slide = PackageBuf::start(100)?;
    /// slide.put_item("/t3/[0].piece", "abc")?;
    /// assert_eq!(slide.part_len("/t3"), Err(Refusal::NotHeld));
    /// slide.put_item("/t3/[1].last.piece", "def")?;
    /// assert_eq!(slide.part_len("/t3"), Ok(6));
    /// # Ok::<(), Refusal>(())
    /// ```
    pub fn part_len(&self, name: impl AsRef<[u8]>) -> Result<usize, Refusal> {
        self.length(name.as_ref())
    }

    /// That of the whole item, else those of the pieces together.
    fn length(&self, name: &[u8]) -> Result<usize, Refusal> {
        self.read_part(name, 0, &mut [])?;
        match self.find_item(name) {
            Err(Refusal::NotHeld) => {}
            whole => return whole,
        }
        let (mut sum, mut number) = (0_usize, 0);
        while let Ok(length) = self.find_piece(name, number, "") {
            sum = sum.saturating_add(length);
            number += 1;
        }
        // a part has a last piece
        let last = self.find_piece(name, number, ".last")?;
        Ok(sum.saturating_add(last))
    }

    fn find_piece(&self, name: &[u8], number: usize, mark: &str) -> Result<usize, Refusal> {
        let mut suffix = String::new();
        write!(suffix, "/[{number}]{mark}.piece").expect("a string takes all");
        self.find_item([name, suffix.as_bytes()].concat())
    }

    /// Copies the name of the part at a position, from 0, in folded order, and
    /// answers its length. [`PART_NAME_MAX`] bytes always suffice.
    ///
    /// # Errors
    ///
    /// [`Refusal::NotAPackage`]; [`Refusal::NotHeld`] if there are not so many
    /// parts; [`Refusal::OutputTooShort`].
    ///
    /// ```
    /// use zombirels::names::PART_NAME_MAX;
    /// use zombirels::package::PackageBuf;
    /// use zombirels::Refusal;
    /// let mut slide = PackageBuf::start(100)?;
    /// slide.put_item("/b", "")?;
    /// slide.put_item("/A", "")?;
    /// let mut out = [0; PART_NAME_MAX];
    /// let length = slide.part_at(0, &mut out)?;
    /// assert_eq!(&out[..length], b"/A");
    /// assert_eq!(slide.part_at(2, &mut out), Err(Refusal::NotHeld));
    /// # Ok::<(), Refusal>(())
    /// ```
    pub fn part_at(&self, position: u64, out: &mut [u8]) -> Result<usize, Refusal> {
        lent::part_at(&self.0, position, out).value()
    }

    /// The name of the part at a position. Each call goes through the items
    /// from the first one on: [`Package::parts`] is the way through all parts.
    ///
    /// # Errors
    ///
    /// As [`Package::part_at`], but for the output; [`Refusal::NotAPackage`] if
    /// it is no text.
    ///
    /// ```
    /// use zombirels::package::PackageBuf;
    /// let mut slide = PackageBuf::start(100)?;
    /// slide.put_item("/b", "")?;
    /// slide.put_item("/A", "")?;
    /// assert_eq!(slide.part_at_to_string(0)?, "/A");
    /// # Ok::<(), zombirels::Refusal>(())
    /// ```
    pub fn part_at_to_string(&self, position: u64) -> Result<String, Refusal> {
        owned::to_string(PART_NAME_MAX, |out| self.part_at(position, out))
    }
}
