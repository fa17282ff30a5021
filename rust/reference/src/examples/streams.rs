//! Streams with their answers, for the tests of both implementations.
//!
//! They are written once for all kinds of streams, with marks for what a kind
//! has of its own: `Kind::stream` puts that in their places.

mod attributes;
mod elements;
mod outline;

/// What all streams may begin with.
pub const DECLARATION: &str = "<?xml version=\"1.0\" encoding=\"UTF-8\"?>";

/// Streams beside what document 02 says of them.
pub struct Clause {
    /// Its words, or what follows from them.
    pub says: &'static str,
    /// Streams that are accepted, and how many entries each has.
    pub accepted: &'static [(usize, &'static [u8])],
    /// Streams that give 19.
    pub malformed: &'static [&'static [u8]],
    /// Streams that give 20.
    pub deep: &'static [&'static [u8]],
}

/// All clauses.
pub fn clauses() -> impl Iterator<Item = &'static Clause> {
    let parts = [outline::CLAUSES, attributes::CLAUSES, elements::CLAUSES];
    parts.into_iter().flatten()
}

/// A kind of stream, by one entry that it can have.
#[derive(Clone, Copy, Debug, PartialEq, Eq)]
pub struct Kind {
    /// The root's name and namespace.
    pub root: &'static str,
    pub namespace: &'static str,
    /// The entry's element and its attributes.
    pub element: &'static str,
    pub attributes: &'static str,
}

pub const DEFAULT: Kind = Kind {
    root: "Types",
    namespace: "http://schemas.openxmlformats.org/package/2006/content-types",
    element: "Default",
    attributes: "Extension=\"x\" ContentType=\"a/b\"",
};
pub const OVERRIDE: Kind = Kind {
    element: "Override",
    attributes: "PartName=\"/x\" ContentType=\"a/b\"",
    ..DEFAULT
};
pub const RELATIONSHIP: Kind = Kind {
    root: "Relationships",
    namespace: "http://schemas.openxmlformats.org/package/2006/relationships",
    element: "Relationship",
    attributes: "Id=\"i\" Type=\"a:b\" Target=\"t\"",
};
pub const KINDS: [Kind; 3] = [DEFAULT, OVERRIDE, RELATIONSHIP];

impl Kind {
    /// A stream with this kind's texts in the places of the marks.
    pub fn stream(&self, marked: &[u8]) -> Vec<u8> {
        let mut parts = marked.split(|&byte| byte == b'$');
        let mut stream = parts.next().unwrap_or_default().to_vec();
        for part in parts {
            let (&mark, rest) = part.split_first().expect("a mark after each $");
            stream.extend_from_slice(self.text(mark).as_bytes());
            stream.extend_from_slice(rest);
        }
        stream
    }

    fn text(&self, mark: u8) -> String {
        let Kind {
            root,
            namespace,
            element,
            attributes,
        } = self;
        match mark {
            b'd' => DECLARATION.to_string(),
            b's' => namespace.to_string(),
            b'n' => format!("xmlns=\"{namespace}\""),
            b'r' => root.to_string(),
            // the tags of the root, and of an entry
            b'<' => format!("<{root} xmlns=\"{namespace}\">"),
            b'>' => format!("</{root}>"),
            b'e' => format!("<{element} {attributes}/>"),
            b'(' => format!("<{element} {attributes}>"),
            b')' => format!("</{element}>"),
            b'f' => element.to_string(),
            b'a' => attributes.to_string(),
            // to depth 16 from the root's content, and back
            b'o' => "<p:a>".repeat(15),
            b'c' => "</p:a>".repeat(15),
            // to depth 15, or to depth 16 from an entry's content, and back
            b'O' => "<p:a>".repeat(14),
            b'C' => "</p:a>".repeat(14),
            _ => panic!("an unknown mark: {}", mark.escape_ascii()),
        }
    }
}
