//! Scripts: many calls on a package, made by one.
//!
//! A [`Script`] gathers calls as bytes; [`Package::run`] makes them one after
//! the other, each on the package as the one before left it, and writes all
//! their answers to one lent output, [`Package::run_to_buf`] to one of its own.
//! A refused call changes nothing and the run goes on behind it. A script may
//! be stored, sent, and run many times. It takes about as long as its calls by
//! themselves: what it saves is the way to the engine, for a caller to whom
//! that is long.
//!
//! ```
//! use zombirels::names::MEDIA_TYPE_MAX;
//! use zombirels::package::PackageBuf;
//! use zombirels::script::Script;
//! use zombirels::Refusal;
//!
//! let mut script = Script::new();
//! script
//!     .put_item("/left/t3.tiff", "tile")
//!     .put_item("/LEFT/T3.TIFF", "another")
//!     .put_default("tiff", "image/tiff")
//!     .media_type("/left/t3.tiff", MEDIA_TYPE_MAX)
//!     .read_part("/left/t3.tiff", 1, 64)
//!     .totals();
//!
//! let mut slide = PackageBuf::start(1000)?;
//! let run = slide.run_to_buf(&script);
//! let answers: Vec<_> = run.answers().collect();
//! assert_eq!(answers[0].done(), Ok(()));
//! assert_eq!(answers[1].done(), Err(Refusal::Taken));
//! assert_eq!(answers[3].output(), Ok(&b"image/tiff"[..]));
//! assert_eq!(answers[4].output(), Ok(&b"ile"[..]));
//! assert_eq!(answers[5].totals()?.items, 1);
//! # Ok::<(), Refusal>(())
//! ```
//!
//! In bytes a call is a head of [`HEAD_SIZE`] and its four texts behind it, one
//! after the other. The head is eight numbers of four bytes, the low byte
//! first: the [`Code`], the length of the output that the call is lent, the
//! lengths of the texts, and the low and the high half of a number. What a
//! call does not take is passed over.

mod answer;
mod calls;
mod code;
mod run;

pub use answer::Answer;
pub use code::Code;
pub use run::{Answers, Run, RunBuf};

use crate::package::Package;
use alloc::vec::Vec;
use core::fmt;

/// The bytes of a call's head.
pub const HEAD_SIZE: usize = 32;

/// The bytes of a reply, which every answer begins with.
pub const REPLY_SIZE: usize = 40;

/// Calls to be made by one [`Package::run`].
///
/// Each method adds the call of that name, with the arguments of the method of
/// [`Package`]. A call that writes takes the length of the output that it is
/// lent, in place of the output.
///
/// # Panics
///
/// A method panics if a text, or the length of an output, is above 2^32 - 1.
#[derive(Clone, Default, PartialEq, Eq)]
pub struct Script {
    bytes: Vec<u8>,
    calls: usize,
    output_len: usize,
}

/// Shows how many calls there are, not their bytes.
impl fmt::Debug for Script {
    fn fmt(&self, f: &mut fmt::Formatter<'_>) -> fmt::Result {
        f.debug_struct("Script")
            .field("calls", &self.calls)
            .field("length", &self.bytes.len())
            .field("output_len", &self.output_len)
            .finish_non_exhaustive()
    }
}

impl Script {
    /// A script without calls.
    #[must_use]
    pub fn new() -> Script {
        Script::default()
    }

    /// The script's bytes.
    #[must_use]
    pub fn as_bytes(&self) -> &[u8] {
        &self.bytes
    }

    /// How many calls the script has.
    #[must_use]
    pub fn calls(&self) -> usize {
        self.calls
    }

    /// How many bytes the answers to all calls take: [`REPLY_SIZE`] for each,
    /// and those that it is lent.
    #[must_use]
    pub fn output_len(&self) -> usize {
        self.output_len
    }

    /// Takes all calls away. The memory is kept for others.
    pub fn clear(&mut self) {
        self.bytes.clear();
        (self.calls, self.output_len) = (0, 0);
    }

    /// Adds a call.
    fn call(&mut self, code: Code, texts: [&[u8]; 4], number: u64, lent: usize) -> &mut Script {
        let short = |length| u32::try_from(length).expect("a length is at most 2^32 - 1");
        let [a, b, c, d] = texts.map(|text| short(text.len()));
        let (low, high) = (number as u32, (number >> 32) as u32);
        let head = [code.number(), short(lent), a, b, c, d, low, high];
        self.bytes.reserve(HEAD_SIZE);
        for field in head {
            self.bytes.extend_from_slice(&field.to_le_bytes());
        }
        for text in texts {
            self.bytes.extend_from_slice(text);
        }
        self.calls += 1;
        self.output_len += REPLY_SIZE + lent;
        self
    }
}
