//! Elements: the root, entries, and what is passed over.

use super::writer::Writer;
use super::Fields;
use crate::examples::streams::Kind;

/// The depth of an element that is too deep.
const TOO_DEEP: usize = 17;

/// What stands in the values of attributes that are passed over.
const VALUES: &[&[u8]] = &[
    b"", b"a", b"a b", b"<", b">", b"&", b"&lt;", b"\"", b"'", b"/>", b"-->", b"=", b"\t\r\n",
    b"\0\xFF", b"xmlns",
];

/// What text is made of where it is passed over.
const TEXTS: &[&[u8]] = &[
    b"a", b" ", b"\n", b"&", b"&lt;", b"&#38;", b">", b"/>", b"-->", b"]]>", b"\"", b"'", b"=",
    b"\0", b"\xFF", b"xmlns",
];

impl Writer<'_> {
    /// The root with its entries, or an empty tag if there is nothing in it.
    pub(super) fn root<E>(&mut self, kind: &Kind, rows: Vec<(E, Fields)>) -> Vec<E> {
        let namespace = [("xmlns", kind.namespace.as_bytes().to_vec())];
        self.start_tag(1, kind.root, &namespace, false);
        if rows.is_empty() && self.once_in(3) {
            self.text("/>");
            return Vec::new();
        }
        self.text(">");
        let mut entries = Vec::new();
        for (entry, fields) in rows {
            self.between(2);
            self.entry(&fields);
            entries.push(entry);
        }
        self.between(2);
        self.end_tag(kind.root);
        entries
    }

    /// An entry as an empty tag or a tag pair.
    fn entry(&mut self, fields: &Fields) {
        self.start_tag(2, fields.element, &fields.attributes, false);
        if self.once_in(3) {
            self.text(">");
            self.between(3);
            self.end_tag(fields.element);
        } else {
            self.text("/>");
        }
    }

    /// Blanks, comments and elements that are passed over, these at that depth.
    fn between(&mut self, depth: usize) {
        self.blanks_and_comments();
        let too_deep = self.deepest >= TOO_DEEP && self.deep.is_none();
        if self.once_in(if too_deep { 2 } else { 6 }) {
            let most = self.deepest - depth;
            let levels = match self.below(3) {
                0 => most,
                _ => self.below(3).min(most),
            };
            self.passed(depth, true, levels);
            self.blanks_and_comments();
        }
    }

    /// An element that is passed over, with so many levels of others in it.
    fn passed(&mut self, depth: usize, prefixed: bool, levels: usize) {
        let name = self.name(prefixed);
        self.start_tag(depth, &name, &[], true);
        if levels == 0 && self.once_in(2) {
            self.text("/>");
            return;
        }
        self.text(">");
        self.passed_text();
        if levels > 0 {
            let prefixed = self.once_in(2);
            self.passed(depth + 1, prefixed, levels - 1);
            self.passed_text();
        }
        if levels > 0 && self.once_in(8) {
            let levels = self.below(levels);
            self.passed(depth + 1, false, levels);
        }
        self.end_tag(&name);
    }

    /// Text and comments that are passed over.
    fn passed_text(&mut self) {
        while self.once_in(4) {
            match self.below(4) {
                0 => self.comment(),
                _ => {
                    let text = self.pick(TEXTS);
                    self.out.extend_from_slice(text);
                }
            }
        }
    }

    /// A start tag up to its `>` or `/>`: a name, its own attributes and others
    /// in any order.
    fn start_tag(&mut self, depth: usize, name: &str, own: &[(&str, Vec<u8>)], passed: bool) {
        if depth == TOO_DEEP {
            self.deep.get_or_insert(self.out.len());
        }
        self.text("<");
        self.text(name);
        let own = own
            .iter()
            .map(|(name, value)| (name.to_string(), value.clone()));
        let mut attributes: Vec<(String, Vec<u8>)> = own.collect();
        while self.once_in(6) {
            let prefixed = !passed || self.once_in(2);
            let (name, value) = (self.name(prefixed), self.pick(VALUES));
            if attributes.iter().all(|(other, _)| *other != name) {
                attributes.push((name, value.to_vec()));
            }
        }
        while !attributes.is_empty() {
            let at = self.below(attributes.len());
            let (name, value) = attributes.swap_remove(at);
            self.attribute(&name, &value);
        }
        self.blanks(0);
    }

    fn attribute(&mut self, name: &str, value: &[u8]) {
        self.blanks(1);
        self.text(name);
        self.blanks(0);
        self.text("=");
        self.blanks(0);
        self.value(value);
    }

    fn end_tag(&mut self, name: &str) {
        self.text("</");
        self.text(name);
        self.blanks(0);
        self.text(">");
    }
}
