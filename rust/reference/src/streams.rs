//! The types stream and the Relationships parts, read.

mod reader;
mod tags;

use reader::{read, Root};
use std::borrow::Cow;
use tags::Tag;

/// The number of a stream that isn't accepted.
pub const MALFORMED: u8 = 19;
/// The number of a stream where a start tag of depth 17 comes before anything
/// malformed.
pub const TOO_DEEP: u8 = 20;

const TYPES: Root = Root {
    name: b"Types",
    namespace: b"http://schemas.openxmlformats.org/package/2006/content-types",
};
const RELATIONSHIPS: Root = Root {
    name: b"Relationships",
    namespace: b"http://schemas.openxmlformats.org/package/2006/relationships",
};

/// The value of an attribute, its entities decoded.
pub type Value<'a> = Cow<'a, [u8]>;

/// An entry of a types stream. Its fields are not judged.
#[derive(Clone, Debug, PartialEq, Eq)]
pub enum TypesEntry<'a> {
    Default {
        extension: Value<'a>,
        media_type: Value<'a>,
    },
    Override {
        name: Value<'a>,
        media_type: Value<'a>,
    },
}

/// An entry of a Relationships part. Its fields are not judged.
#[derive(Clone, Debug, PartialEq, Eq)]
pub struct RelationshipEntry<'a> {
    pub id: Value<'a>,
    pub kind: Value<'a>,
    /// 0 internal, 1 external, 2 for a TargetMode that says neither.
    pub mode: u64,
    pub target: Value<'a>,
}

/// The entries of a types stream in its order, or 19 or 20.
pub fn read_types(stream: &[u8]) -> Result<Vec<TypesEntry<'_>>, u8> {
    read(stream, &TYPES, types_entry)
}

/// The entries of a Relationships part in its order, or 19 or 20.
pub fn read_relationships(stream: &[u8]) -> Result<Vec<RelationshipEntry<'_>>, u8> {
    read(stream, &RELATIONSHIPS, relationship_entry)
}

fn types_entry<'a>(tag: &Tag<'a>) -> Option<TypesEntry<'a>> {
    match tag.name {
        b"Default" => {
            let [extension, media_type] = tag.own(["Extension", "ContentType"])?;
            Some(TypesEntry::Default {
                extension: extension?,
                media_type: media_type?,
            })
        }
        b"Override" => {
            let [name, media_type] = tag.own(["PartName", "ContentType"])?;
            Some(TypesEntry::Override {
                name: name?,
                media_type: media_type?,
            })
        }
        _ => None,
    }
}

fn relationship_entry<'a>(tag: &Tag<'a>) -> Option<RelationshipEntry<'a>> {
    if tag.name != b"Relationship" {
        return None;
    }
    let [id, kind, target, mode] = tag.own(["Id", "Type", "Target", "TargetMode"])?;
    Some(RelationshipEntry {
        id: id?,
        kind: kind?,
        mode: match mode.as_deref() {
            None | Some(b"Internal") => 0,
            Some(b"External") => 1,
            Some(_) => 2,
        },
        target: target?,
    })
}
