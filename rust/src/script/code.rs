//! The codes of a script's calls.

#[cfg(doc)]
use super::Script;

/// The calls of a script, by their codes from 1 to 23. Each is that of one
/// method.
#[derive(Clone, Copy, Debug, PartialEq, Eq, PartialOrd, Ord, Hash)]
pub enum Code {
    /// [`Script::start`]
    Start = 1,
    /// [`Script::put_item`]
    PutItem,
    /// [`Script::drop_item`]
    DropItem,
    /// [`Script::put_default`]
    PutDefault,
    /// [`Script::drop_default`]
    DropDefault,
    /// [`Script::put_override`]
    PutOverride,
    /// [`Script::drop_override`]
    DropOverride,
    /// [`Script::put_relationship`]
    PutRelationship,
    /// [`Script::drop_relationship`]
    DropRelationship,
    /// [`Script::find_item`]
    FindItem,
    /// [`Script::view_item`]
    ViewItem,
    /// [`Script::totals`]
    Totals,
    /// [`Script::read_part`]
    ReadPart,
    /// [`Script::media_type`]
    MediaType,
    /// [`Script::part_at`]
    PartAt,
    /// [`Script::resolve_relationship`]
    ResolveRelationship,
    /// [`Script::write_types`]
    WriteTypes,
    /// [`Script::write_relationships`]
    WriteRelationships,
    /// [`Script::cut_part`]
    CutPart,
    /// [`Script::join_part`]
    JoinPart,
    /// [`Script::type_origin`]
    TypeOrigin,
    /// [`Script::read_types`]
    ReadTypes,
    /// [`Script::read_relationships`]
    ReadRelationships,
}

impl Code {
    /// All codes, from 1 on.
    pub const ALL: [Code; 23] = [
        Code::Start,
        Code::PutItem,
        Code::DropItem,
        Code::PutDefault,
        Code::DropDefault,
        Code::PutOverride,
        Code::DropOverride,
        Code::PutRelationship,
        Code::DropRelationship,
        Code::FindItem,
        Code::ViewItem,
        Code::Totals,
        Code::ReadPart,
        Code::MediaType,
        Code::PartAt,
        Code::ResolveRelationship,
        Code::WriteTypes,
        Code::WriteRelationships,
        Code::CutPart,
        Code::JoinPart,
        Code::TypeOrigin,
        Code::ReadTypes,
        Code::ReadRelationships,
    ];

    /// The number of the code, 1 to 23.
    #[must_use]
    pub fn number(self) -> u32 {
        self as u32
    }

    /// The code with that number, if there is one.
    #[must_use]
    pub fn from_number(number: u32) -> Option<Code> {
        let index = usize::try_from(number).ok()?.checked_sub(1)?;
        Code::ALL.get(index).copied()
    }

    /// Whether the call writes to the bytes that it is lent; others leave them
    /// as they were.
    #[must_use]
    pub fn writes(self) -> bool {
        let writers = Code::ReadPart..=Code::WriteRelationships;
        matches!(self, Code::ViewItem | Code::TypeOrigin) || writers.contains(&self)
    }
}
