//! The four sets of a package, each searched by its texts.

use crate::support::calls::Call;
use zombirels::package::{DEFAULTS_MAX, ITEMS_MAX, OVERRIDES_MAX, RELATIONSHIPS_MAX};
use zombirels::script::Code;

#[derive(Clone, Copy, Debug, PartialEq, Eq)]
pub enum Set {
    Items,
    Defaults,
    Overrides,
    Relationships,
}

pub const SETS: [Set; 4] = [
    Set::Items,
    Set::Defaults,
    Set::Overrides,
    Set::Relationships,
];

/// Where the relationships lead to, and the package IRI.
const TARGET: &[u8] = b"tile";
const BASE: &[u8] = b"http://h/p.opc";

/// The texts are part names. The key of a Default is one without its slash;
/// that of a relationship has it for the source.
impl Set {
    /// How many entries the set may have.
    pub fn most(self) -> usize {
        match self {
            Set::Items => ITEMS_MAX,
            Set::Defaults => DEFAULTS_MAX,
            Set::Overrides => OVERRIDES_MAX,
            Set::Relationships => RELATIONSHIPS_MAX,
        }
    }

    /// How long a text may be.
    pub fn longest(self) -> usize {
        match self {
            Set::Defaults => 32,
            _ => 255,
        }
    }

    pub fn put(self, text: &[u8]) -> Call {
        match self {
            Set::Items => Call::new(Code::PutItem, &[text, text]),
            Set::Defaults => Call::new(Code::PutDefault, &[&text[1..], b"a/default"]),
            Set::Overrides => Call::new(Code::PutOverride, &[text, b"an/override"]),
            Set::Relationships => Call::new(Code::PutRelationship, &[text, b"r1", b"a:", TARGET]),
        }
    }

    pub fn drop(self, text: &[u8]) -> Call {
        match self {
            Set::Items => Call::new(Code::DropItem, &[text]),
            Set::Defaults => Call::new(Code::DropDefault, &[&text[1..]]),
            Set::Overrides => Call::new(Code::DropOverride, &[text]),
            Set::Relationships => Call::new(Code::DropRelationship, &[text, b"r1"]),
        }
    }

    /// The part whose type an entry tells.
    pub fn part(self, text: &[u8]) -> Option<Vec<u8>> {
        match self {
            Set::Defaults => Some([b"/part.", &text[1..]].concat()),
            Set::Overrides => Some(text.to_vec()),
            _ => None,
        }
    }

    /// The calls that ask for an entry. The first is refused by 13 or 14 where
    /// it is not held, if the parts are.
    pub fn asks(self, text: &[u8]) -> Vec<Call> {
        let part = self.part(text).unwrap_or_default();
        match self {
            Set::Items => vec![
                Call::new(Code::FindItem, &[text]),
                Call::new(Code::ViewItem, &[text]).with_output(300),
                Call::new(Code::ReadPart, &[text]).with_output(300),
                Call::new(Code::MediaType, &[text]).with_output(127),
                Call::new(Code::TypeOrigin, &[text]).with_output(255),
                // no such number of pieces: refused by 17 if it is held
                Call::new(Code::CutPart, &[text]),
            ],
            Set::Defaults | Set::Overrides => vec![
                Call::new(Code::MediaType, &[&part]).with_output(127),
                Call::new(Code::TypeOrigin, &[&part]).with_output(255),
            ],
            Set::Relationships => vec![
                Call::new(Code::ResolveRelationship, &[text, b"r1", BASE]).with_output(600),
                Call::new(Code::WriteRelationships, &[text]).with_output(2000),
            ],
        }
    }

    /// What the first of these is refused by.
    pub fn missing(self) -> u64 {
        match self {
            Set::Items | Set::Relationships => 13,
            Set::Defaults | Set::Overrides => 14,
        }
    }
}
