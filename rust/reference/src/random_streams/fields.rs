//! Random entries and their attributes. Most have fields that a put takes.

use super::{Below, Fields};
use crate::streams::{RelationshipEntry, TypesEntry};

const EXTENSIONS: &[&[u8]] = &[
    b"xml",
    b"XML",
    b"tif",
    b"a&b",
    b"it's",
    b"\xC3\xA9",
    b"%20",
    b"&amp;",
    b"lt;",
];
const NAMES: &[&[u8]] = &[
    b"/a",
    b"/A/b.xml",
    b"/a&b",
    b"/it's",
    b"/\xC3\xA9",
    b"/_rels/.rels",
    b"/&quot;",
];
const TYPES: &[&[u8]] = &[
    b"a/b",
    b"image/tiff;page=2",
    b"x/&",
    b"x/'",
    b"x/&lt;a=&",
    b"application/xml",
];
const IDS: &[&[u8]] = &[b"r", b"R", b"_", b"rId", b"a.b-c"];
const RELATIONSHIP_TYPES: &[&[u8]] = &[b"http://e.org/t", b"a:", b"a:&&", b"urn:it's?a=&amp;#b"];
const TARGETS: &[&[u8]] = &[b"a.xml", b"../b", b"/c/d.xml", b"a&b", b"it's", b"\xC3\xA9"];
const EXTERNAL_TARGETS: &[&[u8]] = &[
    b"http://e.org/?a&b#c",
    b"?q",
    b"#f",
    b"//h",
    b"_rels/.rels",
    b"&amp;",
];
const MODES: &[&[u8]] = &[
    b"",
    b"internal",
    b"EXTERNAL",
    b"External ",
    b"\tInternal",
    b"&",
    b"0",
    b"1",
];

/// Values that no field takes, or only some do.
const ODD: &[&[u8]] = &[
    b"",
    b" ",
    b"a b",
    b"/",
    b"<",
    b">",
    b"\"",
    b"\t",
    b"a\n",
    b"\0",
    b"\xFF",
    b"/a.",
    b"a/b;",
    b"_rels/.rels",
    b"%2f",
    b"1",
    b"[0].piece",
    b"/a/[0].piece",
];

/// One of these, or rarely an odd one.
fn field(below: Below, from: &[&[u8]]) -> Vec<u8> {
    let from = if below(40) == 0 { ODD } else { from };
    from[below(from.len())].to_vec()
}

/// A field that differs from those with other numbers, most often.
fn key(below: Below, from: &[&[u8]], number: usize) -> Vec<u8> {
    let mut key = field(below, from);
    if below(20) > 0 {
        key.extend_from_slice(number.to_string().as_bytes());
    }
    key
}

/// A Default or an Override.
pub(super) fn types_entry(below: Below, number: usize) -> (TypesEntry<'static>, Fields) {
    let media_type = field(below, TYPES);
    let content_type = ("ContentType", media_type.clone());
    if below(2) == 0 {
        let extension = key(below, EXTENSIONS, number);
        let fields = Fields {
            element: "Default",
            attributes: vec![("Extension", extension.clone()), content_type],
        };
        let entry = TypesEntry::Default {
            extension: extension.into(),
            media_type: media_type.into(),
        };
        return (entry, fields);
    }
    let name = key(below, NAMES, number);
    let fields = Fields {
        element: "Override",
        attributes: vec![("PartName", name.clone()), content_type],
    };
    let entry = TypesEntry::Override {
        name: name.into(),
        media_type: media_type.into(),
    };
    (entry, fields)
}

/// A relationship.
pub(super) fn relationship_entry(
    below: Below,
    number: usize,
) -> (RelationshipEntry<'static>, Fields) {
    let id = key(below, IDS, number);
    let kind = field(below, RELATIONSHIP_TYPES);
    let mode = match below(40) {
        0 => 2,
        1..=13 => 1,
        _ => 0,
    };
    let targets = if mode == 1 { EXTERNAL_TARGETS } else { TARGETS };
    let target = field(below, targets);
    let mut attributes = vec![
        ("Id", id.clone()),
        ("Type", kind.clone()),
        ("Target", target.clone()),
    ];
    match mode {
        0 if below(2) == 0 => {}
        0 => attributes.push(("TargetMode", b"Internal".to_vec())),
        1 => attributes.push(("TargetMode", b"External".to_vec())),
        _ => attributes.push(("TargetMode", MODES[below(MODES.len())].to_vec())),
    }
    let entry = RelationshipEntry {
        id: id.into(),
        kind: kind.into(),
        mode,
        target: target.into(),
    };
    let element = "Relationship";
    (
        entry,
        Fields {
            element,
            attributes,
        },
    )
}
