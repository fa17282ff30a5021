//! A second implementation of the package engine, written from the paper alone.
//!
//! It shares no code with the engine. Tests give both the same inputs and
//! compare every answer and every output byte; benchmarks use it as yardstick.

pub mod examples;
pub mod iri;
pub mod ledger;
pub mod names;
pub mod pack;
pub mod random_streams;
pub mod relationships;
pub mod script;
pub mod sheet;
pub mod streams;
mod xml;

/// Why a call is refused. Refusal 1 (no package) has no case: the ledger
/// doesn't live in a buffer.
#[derive(Clone, Copy, Debug, PartialEq, Eq)]
pub enum Refusal {
    /// 2: the capacity is too large, or the buffer too short for it.
    BadStart,
    /// 3: the output is too short; this many bytes are needed.
    OutputTooShort(usize),
    /// 4: not a part name.
    NotAPartName,
    /// 5: a reserved name.
    Reserved,
    /// 6: after the last slash stands a `[` that begins no piece suffix.
    BadSuffix,
    /// 7: not a media type, or not an extension.
    BadType,
    /// 8: not an id, a relationship type or a mode.
    BadRelationshipField,
    /// 9: not a target, package IRI or pack IRI.
    BadTarget,
    /// 10: the name or key is taken.
    Taken,
    /// 11: the prefix is derivable from a held one, or the other way round.
    Derivable,
    /// 12: the pieces of the group disagree.
    PiecesDisagree,
    /// 13: not held, no part yet, or no such position.
    NotHeld,
    /// 14: the part has no media type.
    NoMediaType,
    /// 15: a set is full, or the charge would pass the capacity.
    Full,
    /// 16: the line is unreadable, or what a script has is no call.
    UnreadableLine,
    /// 17: not 1 to 256 pieces.
    BadPieceCount,
    /// 18: not whole, to be cut, or not in pieces, to be joined.
    WrongForm,
    /// 19: the stream isn't accepted.
    MalformedStream,
    /// 20: a start tag of depth 17 comes before anything malformed.
    TooDeep,
}

impl Refusal {
    /// The number that the paper gives to this refusal.
    pub fn number(self) -> u64 {
        match self {
            Refusal::BadStart => 2,
            Refusal::OutputTooShort(_) => 3,
            Refusal::NotAPartName => 4,
            Refusal::Reserved => 5,
            Refusal::BadSuffix => 6,
            Refusal::BadType => 7,
            Refusal::BadRelationshipField => 8,
            Refusal::BadTarget => 9,
            Refusal::Taken => 10,
            Refusal::Derivable => 11,
            Refusal::PiecesDisagree => 12,
            Refusal::NotHeld => 13,
            Refusal::NoMediaType => 14,
            Refusal::Full => 15,
            Refusal::UnreadableLine => 16,
            Refusal::BadPieceCount => 17,
            Refusal::WrongForm => 18,
            Refusal::MalformedStream => 19,
            Refusal::TooDeep => 20,
        }
    }

    /// The first value of a refused call: the length needed for 3, else 0.
    pub fn value(self) -> usize {
        match self {
            Refusal::OutputTooShort(needed) => needed,
            _ => 0,
        }
    }
}

/// Writes `bytes` to the start of `out` and answers their number.
fn write_out(out: &mut [u8], bytes: &[u8]) -> Result<usize, Refusal> {
    let room = out
        .get_mut(..bytes.len())
        .ok_or(Refusal::OutputTooShort(bytes.len()))?;
    room.copy_from_slice(bytes);
    Ok(bytes.len())
}
