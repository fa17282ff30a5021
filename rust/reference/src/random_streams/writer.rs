//! What stands between elements and in tags: blanks, comments, names, values.

use super::Below;

const BLANKS: &[&str] = &[" ", "\n", "\t", "\r", "\r\n", "  "];

/// What comments are made of.
const COMMENTS: &[&[u8]] = &[
    b"a", b" ", b"-", b">", b"->", b"<b>", b"<!", b"</", b"/>", b"&", b"'", b"\"", b"\0", b"\xFF",
    b"\n",
];

const NAMES: &[&str] = &[
    "a", "b", "B", "_", "a.b", "x-1", "Default", "Types", "Id", "xmlns",
];
const PREFIXES: &[&str] = &["p", "q", "P", "_", "mc", "xml", "xmlns", "a.b-c_1"];

/// The entities, by what they stand for.
const ENTITIES: [(u8, &str); 5] = [
    (b'<', "&lt;"),
    (b'&', "&amp;"),
    (b'>', "&gt;"),
    (b'"', "&quot;"),
    (b'\'', "&apos;"),
];

/// A stream that is being written.
pub(super) struct Writer<'a> {
    below: Below<'a>,
    /// How deep elements may get.
    pub(super) deepest: usize,
    pub(super) out: Vec<u8>,
    pub(super) deep: Option<usize>,
}

impl<'a> Writer<'a> {
    pub(super) fn new(below: Below<'a>, deepest: usize) -> Writer<'a> {
        Writer {
            below,
            deepest,
            out: Vec::new(),
            deep: None,
        }
    }

    pub(super) fn below(&mut self, end: usize) -> usize {
        (self.below)(end)
    }

    /// True once in `times`.
    pub(super) fn once_in(&mut self, times: usize) -> bool {
        self.below(times) == 0
    }

    pub(super) fn pick<T: Copy>(&mut self, from: &[T]) -> T {
        from[self.below(from.len())]
    }

    pub(super) fn text(&mut self, text: &str) {
        self.out.extend_from_slice(text.as_bytes());
    }

    /// Blanks, at least so many.
    pub(super) fn blanks(&mut self, least: usize) {
        let more = if self.once_in(6) { self.below(3) } else { 0 };
        for _ in 0..least + more {
            let blank = if self.once_in(2) {
                " "
            } else {
                self.pick(BLANKS)
            };
            self.text(blank);
        }
    }

    pub(super) fn blanks_and_comments(&mut self) {
        self.blanks(0);
        if self.once_in(8) {
            self.comment();
            self.blanks(0);
        }
    }

    /// A comment. A `-` has no other behind it, up to the end.
    pub(super) fn comment(&mut self) {
        self.text("<!--");
        let start = self.out.len();
        for _ in 0..self.below(6) {
            let fragment = self.pick(COMMENTS);
            if fragment[0] == b'-' && self.out[start..].ends_with(b"-") {
                self.text(" ");
            }
            self.out.extend_from_slice(fragment);
        }
        if self.out[start..].ends_with(b"-") {
            self.text("a");
        }
        self.text("-->");
    }

    /// A name without a prefix, rarely a long one.
    fn plain_name(&mut self) -> String {
        let name = self.pick(NAMES);
        let times = if self.once_in(60) { 20 } else { 1 };
        name.repeat(times)
    }

    /// A name with or without a prefix.
    pub(super) fn name(&mut self, prefixed: bool) -> String {
        let name = self.plain_name();
        match prefixed {
            true => format!("{}:{name}", self.pick(PREFIXES)),
            false => name,
        }
    }

    /// A value in quotes, with entities where they must be, or may.
    pub(super) fn value(&mut self, value: &[u8]) {
        let quote = self.pick(b"\"'");
        self.out.push(quote);
        for &byte in value {
            let must = matches!(byte, b'<' | b'&') || byte == quote;
            let entity = ENTITIES.iter().find(|(stands_for, _)| *stands_for == byte);
            match entity {
                Some((_, entity)) if must || self.once_in(3) => self.text(entity),
                _ => self.out.push(byte),
            }
        }
        self.out.push(quote);
    }
}
