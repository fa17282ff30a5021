//! The modes of relationships.

use crate::Refusal;
use core::fmt;
use core::str::FromStr;

/// Where the target of a relationship lies. As text it is the word that the
/// streams have: `Internal` or `External`.
///
/// ```
/// use zombirels::package::Mode;
/// use zombirels::Refusal;
/// assert_eq!(Mode::External.to_string(), "External");
/// assert_eq!("Internal".parse(), Ok(Mode::Internal));
/// assert_eq!("internal".parse::<Mode>(), Err(Refusal::BadRelationshipField));
/// assert_eq!(Mode::try_from(1), Ok(Mode::External));
/// assert_eq!(u64::from(Mode::External), 1);
/// assert_eq!(Mode::try_from(2), Err(Refusal::BadRelationshipField));
/// ```
#[derive(Clone, Copy, Debug, PartialEq, Eq, Hash)]
pub enum Mode {
    /// The target leads to a part name of this package, from its source.
    Internal,
    /// The target is an IRI that leads out of the package.
    External,
}

impl Mode {
    /// The number of the mode: 0 internal, 1 external.
    #[must_use]
    pub const fn number(self) -> u64 {
        match self {
            Mode::Internal => 0,
            Mode::External => 1,
        }
    }

    /// The word of the mode.
    #[must_use]
    pub const fn as_str(self) -> &'static str {
        match self {
            Mode::Internal => "Internal",
            Mode::External => "External",
        }
    }
}

impl From<Mode> for u64 {
    fn from(mode: Mode) -> u64 {
        mode.number()
    }
}

/// Refuses other numbers by [`Refusal::BadRelationshipField`].
impl TryFrom<u64> for Mode {
    type Error = Refusal;

    fn try_from(number: u64) -> Result<Mode, Refusal> {
        match number {
            0 => Ok(Mode::Internal),
            1 => Ok(Mode::External),
            _ => Err(Refusal::BadRelationshipField),
        }
    }
}

impl fmt::Display for Mode {
    fn fmt(&self, f: &mut fmt::Formatter<'_>) -> fmt::Result {
        f.pad(self.as_str())
    }
}

/// Refuses other words by [`Refusal::BadRelationshipField`].
impl FromStr for Mode {
    type Err = Refusal;

    fn from_str(word: &str) -> Result<Mode, Refusal> {
        match word {
            "Internal" => Ok(Mode::Internal),
            "External" => Ok(Mode::External),
            _ => Err(Refusal::BadRelationshipField),
        }
    }
}
