use crate::ffi::Reply;
use core::fmt;

/// Why a call is refused.
///
/// A refused call changes nothing: the package and every lent output hold
/// what they held before.
#[derive(Clone, Copy, Debug, PartialEq, Eq, Hash)]
#[non_exhaustive]
pub enum Refusal {
    /// 1: the lent buffer is no package.
    NotAPackage,
    /// 2: the capacity is above 1,000,000, or the buffer is too short for it.
    BadStart,
    /// 3: the output is too short.
    OutputTooShort {
        /// How many bytes the output must have.
        needed: usize,
    },
    /// 4: the name is not a part name.
    NotAPartName,
    /// 5: the name is reserved for Relationships parts.
    Reserved,
    /// 6: after the last slash stands a `[` that begins no piece suffix.
    BadSuffix,
    /// 7: not a media type, or not an extension.
    BadType,
    /// 8: not an id, not a relationship type, or not a mode; for
    /// [`entry_at`](crate::package::Package::entry_at) no such set or field.
    BadRelationshipField,
    /// 9: not a target, not a package IRI, or not a pack IRI.
    BadTarget,
    /// 10: the name or the key is taken.
    Taken,
    /// 11: the name would grow out of a held one, or a held one out of it.
    Derivable,
    /// 12: the pieces disagree: a whole item beside a piece, a second last
    /// piece, a number above the last one's, or a last one below a held number.
    PiecesDisagree,
    /// 13: not held, no part yet, or no such position.
    NotHeld,
    /// 14: the part has no media type.
    NoMediaType,
    /// 15: a set is full, or the charge would pass the capacity.
    Full,
    /// 16: a line of a sheet is unreadable, or what a script has is no call.
    UnreadableLine,
    /// 17: to be cut into no piece, or into more than 256.
    BadPieceCount,
    /// 18: the part is not whole, to be cut, or not in pieces, to be joined.
    WrongForm,
    /// 19: the stream is malformed, or has what is not accepted.
    MalformedStream,
    /// 20: the stream has a start tag at depth 17, the root being at depth 1;
    /// what stands before it is well-formed.
    TooDeep,
}

impl Refusal {
    /// The number of the refusal, 1 to 20.
    #[must_use]
    pub fn number(self) -> u8 {
        match self {
            Refusal::NotAPackage => 1,
            Refusal::BadStart => 2,
            Refusal::OutputTooShort { .. } => 3,
            Refusal::NotAPartName => 4,
            Refusal::Reserved => 5,
            Refusal::BadSuffix => 6,
            Refusal::BadType => 7,
            Refusal::BadRelationshipField => 8,
            Refusal::BadTarget => 9,
            Refusal::Taken => 10,
            Refusal::Derivable => 11,
            Refusal::PiecesDisagree => 12,
            Refusal::NotHeld => 13,
            Refusal::NoMediaType => 14,
            Refusal::Full => 15,
            Refusal::UnreadableLine => 16,
            Refusal::BadPieceCount => 17,
            Refusal::WrongForm => 18,
            Refusal::MalformedStream => 19,
            Refusal::TooDeep => 20,
        }
    }

    fn message(self) -> &'static str {
        match self {
            Refusal::NotAPackage => "the buffer is no package",
            Refusal::BadStart => "the capacity is too large or the buffer too short",
            Refusal::OutputTooShort { .. } => "the output is too short",
            Refusal::NotAPartName => "not a part name",
            Refusal::Reserved => "the name is reserved",
            Refusal::BadSuffix => "not a piece suffix",
            Refusal::BadType => "not a media type or not an extension",
            Refusal::BadRelationshipField => "not an id, relationship type, mode or field",
            Refusal::BadTarget => "not a target, package IRI or pack IRI",
            Refusal::Taken => "the name or key is taken",
            Refusal::Derivable => "one name would be derivable from another",
            Refusal::PiecesDisagree => "the pieces disagree",
            Refusal::NotHeld => "not held",
            Refusal::NoMediaType => "the part has no media type",
            Refusal::Full => "the package is full",
            Refusal::UnreadableLine => "the line or call is unreadable",
            Refusal::BadPieceCount => "not 1 to 256 pieces",
            Refusal::WrongForm => "the part is not whole or not in pieces",
            Refusal::MalformedStream => "the stream is malformed",
            Refusal::TooDeep => "the stream is too deep",
        }
    }

    /// The refusal with that number, if there is one. That an output is too
    /// short comes with a `needed` of 0: the number doesn't tell it.
    ///
    /// ```
    /// use zombirels::Refusal;
    /// assert_eq!(Refusal::from_number(13), Some(Refusal::NotHeld));
    /// assert_eq!(Refusal::NotHeld.number(), 13);
    /// assert_eq!(Refusal::from_number(0), None);
    /// ```
    #[must_use]
    pub fn from_number(number: u64) -> Option<Refusal> {
        Some(match number {
            1 => Refusal::NotAPackage,
            2 => Refusal::BadStart,
            3 => Refusal::OutputTooShort { needed: 0 },
            4 => Refusal::NotAPartName,
            5 => Refusal::Reserved,
            6 => Refusal::BadSuffix,
            7 => Refusal::BadType,
            8 => Refusal::BadRelationshipField,
            9 => Refusal::BadTarget,
            10 => Refusal::Taken,
            11 => Refusal::Derivable,
            12 => Refusal::PiecesDisagree,
            13 => Refusal::NotHeld,
            14 => Refusal::NoMediaType,
            15 => Refusal::Full,
            16 => Refusal::UnreadableLine,
            17 => Refusal::BadPieceCount,
            18 => Refusal::WrongForm,
            19 => Refusal::MalformedStream,
            20 => Refusal::TooDeep,
            _ => return None,
        })
    }
}

impl fmt::Display for Refusal {
    fn fmt(&self, f: &mut fmt::Formatter<'_>) -> fmt::Result {
        write!(f, "{}", self.message())?;
        if let Refusal::OutputTooShort { needed } = self {
            write!(f, ", {needed} bytes are needed")?;
        }
        write!(f, " (refusal {})", self.number())
    }
}

impl core::error::Error for Refusal {}

/// An error that wraps the refusal, with the feature `std`. Its kind is
/// `InvalidData` for [`Refusal::NotAPackage`], [`Refusal::MalformedStream`] and
/// [`Refusal::TooDeep`], `NotFound` for [`Refusal::NotHeld`] and
/// [`Refusal::NoMediaType`], `AlreadyExists` for [`Refusal::Taken`],
/// `InvalidInput` for the others.
///
/// ```
/// use std::io;
/// use zombirels::Refusal;
/// let error = io::Error::from(Refusal::NotHeld);
/// assert_eq!(error.kind(), io::ErrorKind::NotFound);
/// assert_eq!(error.to_string(), "not held (refusal 13)");
/// let refusal = error.get_ref().and_then(|inner| inner.downcast_ref::<Refusal>());
/// assert_eq!(refusal.map(|refusal| refusal.number()), Some(13));
/// ```
#[cfg(feature = "std")]
impl From<Refusal> for std::io::Error {
    fn from(refusal: Refusal) -> std::io::Error {
        use std::io::{Error, ErrorKind};
        let kind = match refusal {
            Refusal::NotAPackage | Refusal::MalformedStream | Refusal::TooDeep => {
                ErrorKind::InvalidData
            }
            Refusal::NotHeld | Refusal::NoMediaType => ErrorKind::NotFound,
            Refusal::Taken => ErrorKind::AlreadyExists,
            _ => ErrorKind::InvalidInput,
        };
        Error::new(kind, refusal)
    }
}

impl Reply {
    /// The values of an accepted call, of which `N` must count, or the refusal.
    /// All others are 0, but for the length that refusal 3 carries.
    pub(crate) fn values<const N: usize>(self) -> Result<[usize; N], Refusal> {
        let values = [self.first, self.second, self.third];
        let used = match self.number {
            0 => N,
            3 => 1,
            _ => 0,
        };
        let unused = &values[used..];
        assert!(unused.iter().all(|&value| value == 0), "an unnamed value");
        let needed = self.first as usize;
        match Refusal::from_number(self.number) {
            Some(Refusal::OutputTooShort { .. }) => Err(Refusal::OutputTooShort { needed }),
            Some(refusal) => Err(refusal),
            None => {
                let known = self.number == 0;
                assert!(known, "the archive knows only refusals 1 to 20");
                assert_eq!(self.count, N as u64, "values in the archive's answer");
                Ok(core::array::from_fn(|i| values[i] as usize))
            }
        }
    }

    /// The answer of a call that names one value.
    pub(crate) fn value(self) -> Result<usize, Refusal> {
        self.values().map(|[value]| value)
    }

    /// The answer of a call that names no value: it answers 0 in its place.
    pub(crate) fn done(self) -> Result<(), Refusal> {
        self.value().map(drop)
    }
}

#[cfg(test)]
mod tests {
    use super::*;
    use alloc::format;
    use alloc::string::ToString;

    #[test]
    fn numbers_go_forth_and_back() {
        for number in 1..=20 {
            let refusal = Refusal::from_number(number).unwrap();
            assert_eq!(u64::from(refusal.number()), number);
            let text = refusal.to_string();
            assert!(text.ends_with(&format!("(refusal {number})")), "{text}");
        }
        assert_eq!(Refusal::from_number(0), None);
        assert_eq!(Refusal::from_number(21), None);
        assert_eq!(Refusal::from_number((1 << 32) + 1), None);
    }

    #[test]
    fn the_length_needed_is_shown() {
        let refusal = Refusal::OutputTooShort { needed: 12 };
        let expected = "the output is too short, 12 bytes are needed (refusal 3)";
        assert_eq!(refusal.to_string(), expected);
    }

    fn reply(number: u64, count: u64, values: [u64; 3]) -> Reply {
        let [first, second, third] = values;
        Reply {
            number,
            count,
            first,
            second,
            third,
        }
    }

    #[test]
    fn replies() {
        assert_eq!(reply(0, 2, [5, 6, 0]).values(), Ok([5, 6]));
        assert_eq!(reply(0, 3, [5, 6, 7]).values(), Ok([5, 6, 7]));
        assert_eq!(reply(0, 0, [0; 3]).values::<0>(), Ok([]));
        let no_name = Err(Refusal::NotAPartName);
        assert_eq!(reply(4, 0, [0; 3]).values::<1>(), no_name);
        let short = Err(Refusal::OutputTooShort { needed: 5 });
        assert_eq!(reply(3, 1, [5, 0, 0]).values::<3>(), short);
    }

    #[test]
    #[should_panic = "an unnamed value"]
    fn values_past_those_that_count() {
        reply(0, 2, [5, 6, 7]).values::<2>().ok();
    }

    #[test]
    #[should_panic = "an unnamed value"]
    fn values_of_a_refusal() {
        reply(4, 1, [5, 0, 0]).values::<1>().ok();
    }

    #[test]
    #[should_panic = "an unnamed value"]
    fn values_past_the_length_needed() {
        reply(3, 3, [5, 1, 0]).values::<3>().ok();
    }
}
