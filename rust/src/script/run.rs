//! Scripts run.

use super::answer::at;
use super::{Answer, Code, Package, Script, HEAD_SIZE, REPLY_SIZE};
use crate::lent;
use alloc::vec;
use alloc::vec::Vec;
use core::fmt;
use core::iter::FusedIterator;

/// Scripts.
impl Package {
    /// Makes the calls of a script one after the other and writes their
    /// answers to `out`: all, if it has [`Script::output_len`] bytes. It ends
    /// before a call whose answer finds no room; what the calls before it did
    /// is done.
    ///
    /// ```
    /// use zombirels::names::PART_NAME_MAX;
    /// use zombirels::package::PackageBuf;
    /// use zombirels::script::Script;
    /// let mut script = Script::new();
    /// for position in 0..3 {
    ///     script.part_at(position, PART_NAME_MAX);
    /// }
    /// let mut slide = PackageBuf::start(100)?;
    /// slide.put_item("/b", "")?;
    /// slide.put_item("/A", "")?;
    ///
    /// let mut out = vec![0; script.output_len()];
    /// let run = slide.run(&script, &mut out);
    /// let names: Vec<&[u8]> = run.answers().flat_map(|answer| answer.output()).collect();
    /// assert_eq!(names, [b"/A", b"/b"]);
    /// # Ok::<(), zombirels::Refusal>(())
    /// ```
    pub fn run<'r>(&mut self, script: &'r Script, out: &'r mut [u8]) -> Run<'r> {
        self.run_bytes(script.as_bytes(), out)
    }

    /// Makes all calls of a script and keeps their answers.
    ///
    /// ```
    /// use zombirels::package::PackageBuf;
    /// use zombirels::script::Script;
    /// let mut script = Script::new();
    /// script.put_item("/t3", "tile").find_item("/T3");
    /// let mut slide = PackageBuf::start(100)?;
    /// let run = slide.run_to_buf(&script);
    /// let lengths: Vec<_> = run.answers().map(|answer| answer.length()).collect();
    /// assert_eq!(lengths, [Ok(0), Ok(4)]);
    /// # Ok::<(), zombirels::Refusal>(())
    /// ```
    pub fn run_to_buf<'s>(&mut self, script: &'s Script) -> RunBuf<'s> {
        let mut out = vec![0; script.output_len()];
        let Run { read, calls, .. } = self.run(script, &mut out);
        let script = script.as_bytes();
        RunBuf {
            script,
            out,
            read,
            calls,
        }
    }

    /// Runs a script from any bytes, stored ones or another's. Where they have
    /// no call, the run ends with the answer
    /// [`Refusal::UnreadableLine`](crate::Refusal::UnreadableLine).
    ///
    /// ```
    /// use zombirels::package::PackageBuf;
    /// use zombirels::script::Script;
    /// use zombirels::Refusal;
    /// let mut stored = Script::new().totals().as_bytes().to_vec();
    /// stored.push(2);
    ///
    /// let mut slide = PackageBuf::start(100)?;
    /// let mut out = [0; 200];
    /// let run = slide.run_bytes(&stored, &mut out);
    /// assert_eq!((run.calls(), run.is_complete()), (1, false));
    /// let last = run.answers().last().unwrap();
    /// assert_eq!(last.done(), Err(Refusal::UnreadableLine));
    /// # Ok::<(), Refusal>(())
    /// ```
    pub fn run_bytes<'r>(&mut self, script: &'r [u8], out: &'r mut [u8]) -> Run<'r> {
        let reply = lent::run(self.as_bytes_mut(), script, out);
        let [written, read, calls] = reply.values().expect("a run is never refused");
        Run {
            script,
            out: &out[..written],
            read,
            calls,
        }
    }
}

/// What [`Package::run`] did.
#[derive(Clone, Copy)]
pub struct Run<'a> {
    script: &'a [u8],
    out: &'a [u8],
    read: usize,
    calls: usize,
}

/// Shows the numbers, not the answers.
impl fmt::Debug for Run<'_> {
    fn fmt(&self, f: &mut fmt::Formatter<'_>) -> fmt::Result {
        f.debug_struct("Run")
            .field("written", &self.written())
            .field("read", &self.read)
            .field("calls", &self.calls)
            .finish_non_exhaustive()
    }
}

impl<'a> Run<'a> {
    /// How many bytes of the output were written. Those past them are kept.
    #[must_use]
    pub fn written(&self) -> usize {
        self.out.len()
    }

    /// How many bytes of the script the calls have that were made: where to go
    /// on if the output was too short for all.
    #[must_use]
    pub fn read(&self) -> usize {
        self.read
    }

    /// How many calls were made.
    #[must_use]
    pub fn calls(&self) -> usize {
        self.calls
    }

    /// Whether the script was run to its end.
    #[must_use]
    pub fn is_complete(&self) -> bool {
        self.read == self.script.len()
    }

    /// The answers, in the order of the calls. Where the script has no call,
    /// the last one is
    /// [`Refusal::UnreadableLine`](crate::Refusal::UnreadableLine), if there
    /// was room.
    #[must_use]
    pub fn answers(&self) -> Answers<'a> {
        Answers {
            script: &self.script[..self.read],
            out: self.out,
        }
    }
}

impl<'a> IntoIterator for Run<'a> {
    type Item = Answer<'a>;
    type IntoIter = Answers<'a>;

    fn into_iter(self) -> Answers<'a> {
        self.answers()
    }
}

/// What [`Package::run_to_buf`] did: a [`Run`] that owns the answers.
#[derive(Clone)]
pub struct RunBuf<'s> {
    script: &'s [u8],
    out: Vec<u8>,
    read: usize,
    calls: usize,
}

/// Shows the numbers, not the answers.
impl fmt::Debug for RunBuf<'_> {
    fn fmt(&self, f: &mut fmt::Formatter<'_>) -> fmt::Result {
        self.as_run().fmt(f)
    }
}

impl RunBuf<'_> {
    /// The run, with answers that are lent.
    #[must_use]
    pub fn as_run(&self) -> Run<'_> {
        Run {
            script: self.script,
            out: &self.out,
            read: self.read,
            calls: self.calls,
        }
    }

    /// The answers, in the order of the calls.
    #[must_use]
    pub fn answers(&self) -> Answers<'_> {
        self.as_run().answers()
    }

    /// The answers' bytes.
    #[must_use]
    pub fn into_bytes(self) -> Vec<u8> {
        self.out
    }
}

/// The answers of a [`Run`].
#[derive(Clone)]
pub struct Answers<'a> {
    /// The calls whose answers are still to come, and these.
    script: &'a [u8],
    out: &'a [u8],
}

impl fmt::Debug for Answers<'_> {
    fn fmt(&self, f: &mut fmt::Formatter<'_>) -> fmt::Result {
        f.debug_list().entries(self.clone()).finish()
    }
}

impl<'a> Iterator for Answers<'a> {
    type Item = Answer<'a>;

    fn next(&mut self) -> Option<Answer<'a>> {
        let (reply, rest) = self.out.split_at_checked(REPLY_SIZE)?;
        if self.script.is_empty() {
            self.out = rest;
            return Some(Answer::new(None, reply, b""));
        }
        let (head, texts) = self.script.split_at(HEAD_SIZE);
        let [code, lent, a, b, c, d, ..] = fields(head);
        let size = [a, b, c, d].iter().map(|&length| length as usize).sum();
        self.script = &texts[size..];
        let (lent, rest) = rest.split_at(lent as usize);
        self.out = rest;
        let code = Code::from_number(code).expect("a call that was made");
        Some(Answer::new(Some(code), reply, lent))
    }
}

impl FusedIterator for Answers<'_> {}

/// The numbers of a head.
fn fields(head: &[u8]) -> [u32; 8] {
    core::array::from_fn(|i| u32::from_le_bytes(at(head, 4 * i)))
}
