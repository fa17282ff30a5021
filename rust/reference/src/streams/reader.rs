//! The elements of a stream from its start to its end, in one pass.

use super::tags::{comment, end_tag, is_blank, is_prefixed, start_tag, Tag};
use super::{MALFORMED, TOO_DEEP};
use crate::names::is_id_start;

/// The only declaration that is accepted.
const DECLARATION: &[u8] = b"<?xml version=\"1.0\" encoding=\"UTF-8\"?>";

/// How deep elements can stand in one another; the root is at depth 1.
const DEPTH_MAX: usize = 16;

/// The root that a stream must have.
pub(super) struct Root {
    pub(super) name: &'static [u8],
    pub(super) namespace: &'static [u8],
}

/// What stands where.
#[derive(Clone, Copy, PartialEq, Eq)]
enum Place {
    /// Around the root: blanks, comments and one root.
    Outside,
    /// In the root: blanks, comments, entries and prefixed elements.
    Root,
    /// In an entry: blanks, comments and prefixed elements.
    Entry,
    /// In a prefixed element: anything whose tags match.
    Passed,
}

/// An element whose end tag is still to come.
struct Open<'a> {
    name: &'a [u8],
    /// What stands in it.
    place: Place,
}

struct Reader<'a> {
    /// What is still to be read.
    rest: &'a [u8],
    /// The open elements, the root first.
    open: Vec<Open<'a>>,
    /// Whether the root has begun.
    rooted: bool,
}

/// Reads a stream with such a root. `entry` reads an entry off its tag, or
/// answers none if there is no such entry.
pub(super) fn read<'a, T>(
    stream: &'a [u8],
    root: &Root,
    entry: impl Fn(&Tag<'a>) -> Option<T>,
) -> Result<Vec<T>, u8> {
    let mut reader = Reader {
        rest: stream.strip_prefix(DECLARATION).unwrap_or(stream),
        open: Vec::new(),
        rooted: false,
    };
    let mut entries = Vec::new();
    while !reader.rest.is_empty() {
        if !reader.is_at_start_tag() {
            reader.pass().ok_or(MALFORMED)?;
            continue;
        }
        if reader.open.len() == DEPTH_MAX {
            return Err(TOO_DEEP);
        }
        let tag = start_tag(&mut reader.rest).ok_or(MALFORMED)?;
        let place = reader.place_in(&tag, root).ok_or(MALFORMED)?;
        if place == Place::Entry {
            entries.push(entry(&tag).ok_or(MALFORMED)?);
        }
        reader.enter(&tag, place);
    }
    if reader.rooted && reader.open.is_empty() {
        Ok(entries)
    } else {
        Err(MALFORMED)
    }
}

impl<'a> Reader<'a> {
    /// The innermost open element's place.
    fn place(&self) -> Place {
        self.open.last().map_or(Place::Outside, |open| open.place)
    }

    /// Whether a start tag comes next: `<` and what can begin a name.
    fn is_at_start_tag(&self) -> bool {
        matches!(self.rest, [b'<', first, ..] if is_id_start(*first))
    }

    /// Passes over an end tag, a comment or text.
    fn pass(&mut self) -> Option<()> {
        if self.rest.starts_with(b"</") {
            let name = end_tag(&mut self.rest)?;
            let open = self.open.pop()?;
            (open.name == name).then_some(())
        } else if self.rest.starts_with(b"<") {
            comment(&mut self.rest)
        } else {
            self.pass_text()
        }
    }

    /// Passes over text up to the next `<`, which is blank in most places.
    fn pass_text(&mut self) -> Option<()> {
        let end = self.rest.iter().position(|&byte| byte == b'<');
        let (text, rest) = self.rest.split_at(end.unwrap_or(self.rest.len()));
        self.rest = rest;
        (self.place() == Place::Passed || text.iter().all(is_blank)).then_some(())
    }

    /// The place in the element that a tag begins, if it can stand here.
    fn place_in(&self, tag: &Tag, root: &Root) -> Option<Place> {
        match (self.place(), is_prefixed(tag.name)) {
            (Place::Outside, _) => {
                let fits = !self.rooted && is_root(tag, root);
                fits.then_some(Place::Root)
            }
            (Place::Passed, _) | (_, true) => Some(Place::Passed),
            (Place::Root, false) => Some(Place::Entry),
            (Place::Entry, false) => None,
        }
    }

    /// Opens an element, unless its tag is an empty one.
    fn enter(&mut self, tag: &Tag<'a>, place: Place) {
        self.rooted = true;
        if !tag.empty {
            let name = tag.name;
            self.open.push(Open { name, place });
        }
    }
}

/// Whether a tag is that of the root, with its namespace declared as default.
fn is_root(tag: &Tag, root: &Root) -> bool {
    let namespace = match tag.own(["xmlns"]) {
        Some([Some(namespace)]) => namespace,
        _ => return false,
    };
    tag.name == root.name && *namespace == *root.namespace
}
