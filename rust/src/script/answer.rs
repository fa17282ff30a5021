//! The answers of a script's calls.

use super::Code;
use crate::ffi::Reply;
use crate::package::{Cut, Resolved, Totals, TypeOrigin};
use crate::Refusal;

/// `N` bytes from a place on.
pub(super) fn at<const N: usize>(bytes: &[u8], place: usize) -> [u8; N] {
    core::array::from_fn(|i| bytes[place + i])
}

/// The answer to one call of a script.
#[derive(Clone, Copy, Debug, PartialEq, Eq)]
pub struct Answer<'a> {
    /// Which call it is; none where the script has no call.
    pub code: Option<Code>,
    /// The values, or why the call was refused. Those past the call's own are
    /// 0; a call that names no value answers 0.
    pub values: Result<[usize; 3], Refusal>,
    /// The bytes that the call was lent, as it left them.
    pub lent: &'a [u8],
}

impl<'a> Answer<'a> {
    pub(super) fn new(code: Option<Code>, reply: &[u8], lent: &'a [u8]) -> Answer<'a> {
        let field = |i: usize| u64::from_le_bytes(at(reply, 8 * i));
        let reply = Reply {
            number: field(0),
            count: field(1),
            first: field(2),
            second: field(3),
            third: field(4),
        };
        let values = match code {
            Some(Code::Totals | Code::ResolveRelationship) => reply.values(),
            Some(Code::CutPart | Code::TypeOrigin) => {
                reply.values().map(|[first, second]| [first, second, 0])
            }
            _ => reply.values().map(|[value]| [value, 0, 0]),
        };
        Answer { code, values, lent }
    }

    /// That the call was accepted.
    ///
    /// # Errors
    ///
    /// Those of the call.
    pub fn done(&self) -> Result<(), Refusal> {
        self.values.map(drop)
    }

    /// The length of the item that was found or viewed, of what the call
    /// wrote, or of the pieces of a cut but for the first ones. It is the first
    /// value, but the second of a
    /// [`type_origin`](crate::package::Package::type_origin).
    ///
    /// # Errors
    ///
    /// Those of the call.
    pub fn length(&self) -> Result<usize, Refusal> {
        self.values.map(|[first, second, _]| match self.code {
            Some(Code::TypeOrigin) => second,
            _ => first,
        })
    }

    /// What the call wrote; of a viewed item the bytes that were copied. A
    /// call that writes nothing gives none.
    ///
    /// # Errors
    ///
    /// Those of the call.
    pub fn output(&self) -> Result<&'a [u8], Refusal> {
        let length = self.length()?;
        let written = match self.code {
            Some(code) if code.writes() => length,
            _ => 0,
        };
        Ok(&self.lent[..written.min(self.lent.len())])
    }

    /// What [`Package::totals`](crate::package::Package::totals) answers.
    ///
    /// # Errors
    ///
    /// Those of the call.
    ///
    /// # Panics
    ///
    /// If it is another call.
    pub fn totals(&self) -> Result<Totals, Refusal> {
        assert_eq!(self.code, Some(Code::Totals), "not the answer of totals");
        let [items, parts, charge] = self.values?;
        Ok(Totals {
            items,
            parts,
            charge,
        })
    }

    /// What [`Package::cut_part`](crate::package::Package::cut_part) answers.
    ///
    /// # Errors
    ///
    /// Those of the call.
    ///
    /// # Panics
    ///
    /// If it is another call.
    pub fn cut(&self) -> Result<Cut, Refusal> {
        assert_eq!(self.code, Some(Code::CutPart), "not the answer of a cut");
        self.values.map(|[size, longer, _]| Cut { size, longer })
    }

    /// What [`Package::type_origin`](crate::package::Package::type_origin)
    /// answers; the key lies in [`Answer::lent`].
    ///
    /// # Errors
    ///
    /// Those of the call.
    ///
    /// # Panics
    ///
    /// If it is another call.
    ///
    /// ```
    /// use zombirels::names::PART_NAME_MAX;
    /// use zombirels::package::{PackageBuf, TypeOrigin};
    /// use zombirels::script::Script;
    /// let mut script = Script::new();
    /// script.put_item("/t3.tiff", "tile").put_default("TIFF", "image/tiff");
    /// script.type_origin("/t3.tiff", PART_NAME_MAX);
    ///
    /// let mut slide = PackageBuf::start(100)?;
    /// let run = slide.run_to_buf(&script);
    /// let answers: Vec<_> = run.answers().collect();
    /// assert_eq!(answers[2].type_origin(), Ok(TypeOrigin::Default(&b"TIFF"[..])));
    /// assert_eq!(answers[2].output(), Ok(&b"TIFF"[..]));
    /// # Ok::<(), zombirels::Refusal>(())
    /// ```
    pub fn type_origin(&self) -> Result<TypeOrigin<&'a [u8]>, Refusal> {
        let expected = Some(Code::TypeOrigin);
        assert_eq!(self.code, expected, "not the answer of a type origin");
        let [kind, length, _] = self.values?;
        Ok(TypeOrigin::from_values([kind, length], self.lent))
    }

    /// What
    /// [`Package::resolve_relationship`](crate::package::Package::resolve_relationship)
    /// answers; the IRI is [`Answer::output`].
    ///
    /// # Errors
    ///
    /// Those of the call.
    ///
    /// # Panics
    ///
    /// If it is another call.
    pub fn resolved(&self) -> Result<Resolved, Refusal> {
        let expected = Some(Code::ResolveRelationship);
        assert_eq!(self.code, expected, "not the answer of a resolve");
        self.values.map(Resolved::from_values)
    }
}
