//! Foreign buffers that are taken for a package: 640 rows that all lie in one
//! place of a long heap, and the calls on them.

use zombirels::package::{Mode, Package, CAPACITY_MAX, OVERHEAD};
use zombirels::Refusal;

/// How many rows a package has at most.
const ROWS: u32 = 640;
/// The header's bytes, and those of a row's place in the table behind it.
const HEADER: usize = 64;
const SLOT: usize = 24;

/// The tags of rows: a Default's, an Override's, an internal relationship's.
const DEFAULT: u32 = 32_768;
const OVERRIDE: u32 = 32_769;
const RELATIONSHIP: u32 = 32_770;

/// What the header says of the rows.
#[derive(Clone, Copy)]
pub struct Header {
    pub rows: u32,
    pub used: u32,
}

/// All rows, and all bytes that a package may use; and one row less, none of
/// them used, so that a put finds room and gathers the rows.
pub const HEADERS: [Header; 2] = [
    Header {
        rows: ROWS,
        used: CAPACITY_MAX as u32,
    },
    Header {
        rows: ROWS - 1,
        used: 0,
    },
];

/// The rows of such a buffer: for each its tag, its place in the heap, and how
/// long its four fields are where it has so many bytes.
pub struct Rows {
    pub what: &'static str,
    tag: fn(u32) -> u32,
    at: fn(u32) -> u32,
    fields: fn(u32) -> [u32; 4],
}

/// The tag of piece i, the last one marked.
fn of_piece(i: u32) -> u32 {
    2 * i + 2 + u32::from(i == ROWS - 1)
}

pub const KINDS: [Rows; 14] = [
    Rows {
        what: "types",
        tag: |i| if i < ROWS / 2 { DEFAULT } else { OVERRIDE },
        at: |_| 3,
        fields: |n| [n / 2, n - n / 2, 0, 0],
    },
    // of the source `/`, each with the id `a`
    Rows {
        what: "relationships",
        tag: |_| RELATIONSHIP,
        at: |_| 1,
        fields: |n| [1, 1, n / 2, n - n / 2 - 2],
    },
    Rows {
        what: "whole items, /a",
        tag: |_| 0,
        at: |_| 1,
        fields: |n| [2, 0, n - 2, 0],
    },
    Rows {
        what: "whole items and Overrides, /a",
        tag: |i| if i < ROWS / 2 { 0 } else { OVERRIDE },
        at: |_| 1,
        fields: |n| [2, n - 2, 0, 0],
    },
    Rows {
        what: "whole items, long name",
        tag: |_| 0,
        at: |_| 3,
        fields: |n| [n, 0, 0, 0],
    },
    Rows {
        what: "pieces, /a",
        tag: of_piece,
        at: |_| 1,
        fields: |n| [2, 0, n - 2, 0],
    },
    Rows {
        what: "pieces, one long name",
        tag: of_piece,
        at: |_| 3,
        fields: |n| [n, 0, 0, 0],
    },
    // names of neighbours differ in their last byte alone
    Rows {
        what: "pieces, two long names",
        tag: of_piece,
        at: |i| 3 + i % 2,
        fields: |n| [n, 0, 0, 0],
    },
    // these do not lie in one place: a gap before each, for a put to close
    Rows {
        what: "items with gaps",
        tag: |_| 0,
        at: |i| 1 + 1500 * i,
        fields: |_| [2, 0, 1000, 0],
    },
    // items enough are free for a cut, but hardly a row is
    Rows {
        what: "one whole item and relationships, /a",
        tag: |i| if i == 0 { 0 } else { RELATIONSHIP },
        at: |_| 1,
        fields: |n| [2, 0, n - 2, 0],
    },
    Rows {
        what: "one piece and relationships, /a",
        tag: |i| if i == 0 { 3 } else { RELATIONSHIP },
        at: |_| 1,
        fields: |n| [2, 0, n - 2, 0],
    },
    Rows {
        what: "256 pieces and relationships, /a",
        tag: |i| match i {
            0..=254 => 2 * i + 2,
            255 => 2 * i + 3,
            _ => RELATIONSHIP,
        },
        at: |_| 1,
        fields: |n| [2, 0, n - 2, 0],
    },
    // of these names the buffer has no byte, and of those not all
    Rows {
        what: "whole items, name behind the end",
        tag: |_| 0,
        at: |_| u32::MAX,
        fields: |_| [2, 0, 0, 0],
    },
    Rows {
        what: "whole items and Overrides, name past the end",
        tag: |i| if i < ROWS / 2 { 0 } else { OVERRIDE },
        at: |_| 1,
        fields: |n| [n + 4, 0, 0, 0],
    },
];

/// The bytes that a row has: all of the heap, or so many that all rows have no
/// more than a package uses.
#[derive(Clone, Copy)]
pub enum Share {
    Heap,
    Used,
}

/// The buffer. Its heap is `&/a`, then `&` again and again, and a last `/`.
pub fn buffer(kind: &Rows, header: Header, share: Share, heap: usize) -> Vec<u8> {
    let mut buffer = vec![b'&'; OVERHEAD + heap];
    Package::start(&mut buffer, CAPACITY_MAX).expect("room");
    buffer[OVERHEAD + 1..OVERHEAD + 3].copy_from_slice(b"/a");
    buffer[OVERHEAD + heap - 1] = b'/';
    let size = match share {
        Share::Heap => heap as u32 - 4,
        Share::Used => CAPACITY_MAX as u32 / ROWS,
    };
    for (i, number) in [header.rows, header.used, heap as u32].iter().enumerate() {
        buffer[12 + 4 * i..][..4].copy_from_slice(&number.to_le_bytes());
    }
    for i in 0..header.rows {
        let [a, b, c, d] = (kind.fields)(size);
        let slot = [(kind.at)(i), a, b, c, d, (kind.tag)(i)];
        let at = HEADER + SLOT * i as usize;
        for (number, place) in slot.iter().zip(buffer[at..].chunks_exact_mut(4)) {
            place.copy_from_slice(&number.to_le_bytes());
        }
    }
    buffer
}

/// A call on a package, with an output.
pub type Call = fn(&mut Package, &mut [u8]) -> Result<(), Refusal>;

const TYPE: &[u8] = b"image/tiff";
const BASE: &[u8] = b"http://example.com/slide.opc";

/// A types stream of so many entries, Defaults and Overrides in turn.
fn types(count: usize) -> Vec<u8> {
    let entry = |i: usize| match i % 2 {
        0 => format!("<Default Extension='e{i}' ContentType='a/b'/>"),
        _ => format!("<Override PartName='/n{i}' ContentType='a/b'/>"),
    };
    stream("Types", "content-types", (0..count).map(entry).collect())
}

/// A Relationships part of so many entries.
fn links(count: usize) -> Vec<u8> {
    let entry = |i| format!("<Relationship Id='r{i}' Type='a:b' Target='t'/>");
    let entries = (0..count).map(entry).collect();
    stream("Relationships", "relationships", entries)
}

fn stream(root: &str, namespace: &str, entries: String) -> Vec<u8> {
    let place = "http://schemas.openxmlformats.org/package/2006";
    format!("<{root} xmlns='{place}/{namespace}'>{entries}</{root}>").into_bytes()
}

/// Every call on a package but start.
pub const CALLS: [(&str, Call); 35] = [
    ("put item", |p, _| p.put_item(b"/b", [7; 100])),
    ("put item, derivable", |p, _| p.put_item(b"/a/b", b"")),
    ("drop item", |p, _| p.drop_item(b"/a")),
    ("find item", |p, _| p.find_item(b"/a").map(drop)),
    ("view item", |p, _| {
        let view = p.view_item(b"/a").unwrap_or_default();
        assert!(view.len() <= p.as_bytes().len());
        Ok(())
    }),
    ("read part", |p, out| p.read_part(b"/a", 0, out).map(drop)),
    ("part at", |p, out| p.part_at(300, out).map(drop)),
    ("cut part", |p, _| p.cut_part(b"/a", 2).map(drop)),
    ("cut part, 256 pieces", |p, _| {
        p.cut_part(b"/a", 256).map(drop)
    }),
    ("cut part, no piece", |p, _| p.cut_part(b"/a", 0).map(drop)),
    ("join part", |p, _| p.join_part(b"/a")),
    ("join part, not held", |p, _| p.join_part(b"/b")),
    ("totals", |p, _| p.totals().map(drop)),
    ("entry at, item", |p, out| {
        p.entry_at(0, 255, 1, out).map(drop)
    }),
    ("entry at, Default", |p, out| {
        p.entry_at(1, 63, 1, out).map(drop)
    }),
    ("entry at, Override", |p, out| {
        p.entry_at(2, 63, 1, out).map(drop)
    }),
    ("entry at, relationship", |p, out| {
        p.entry_at(3, 255, 4, out).map(drop)
    }),
    ("put Default", |p, _| p.put_default(b"a", TYPE)),
    ("drop Default", |p, _| p.drop_default(b"a")),
    ("put Override", |p, _| p.put_override(b"/a", TYPE)),
    ("drop Override", |p, _| p.drop_override(b"/a")),
    ("media type", |p, out| p.media_type(b"/a", out).map(drop)),
    ("type origin", |p, out| p.type_origin(b"/a", out).map(drop)),
    ("type origin, not held", |p, out| {
        p.type_origin(b"/b.a", out).map(drop)
    }),
    ("put relationship", |p, _| {
        p.put_relationship(b"/", b"b", b"a:b", Mode::Internal, b"a")
    }),
    ("drop relationship", |p, _| p.drop_relationship(b"/", b"a")),
    ("resolve relationship", |p, out| {
        p.resolve_relationship(b"/", b"a", BASE, out).map(drop)
    }),
    ("write types", |p, out| p.write_types(out).map(drop)),
    ("write relationships", |p, out| {
        p.write_relationships(b"/", out).map(drop)
    }),
    ("read types", |p, _| p.read_types(types(2))),
    ("read types, 300", |p, _| p.read_types(types(300))),
    ("read types, malformed", |p, _| p.read_types(&types(2)[1..])),
    ("read relationships", |p, _| {
        p.read_relationships(b"/", links(2))
    }),
    ("read relationships, 300", |p, _| {
        p.read_relationships(b"/", links(300))
    }),
    ("restart", |p, _| p.restart(CAPACITY_MAX + 1)),
];
