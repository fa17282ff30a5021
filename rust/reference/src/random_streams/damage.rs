//! Damage to streams.

use super::Below;

/// Bytes that mean something in a stream, and some that don't.
const BYTES: &[u8] = b"<<>>//==\"\"''&&;::!!--??  \t\r\nax_0.[]\0\x80\xFF";

/// Texts that mean something in a stream.
const TEXTS: &[&[u8]] = &[
    b"<",
    b">",
    b"</",
    b"/>",
    b"<!--",
    b"-->",
    b"--",
    b"<!---->",
    b"<!-->-->",
    b"<a",
    b"<a:b>",
    b"</a:b>",
    b"<a:b/>",
    b"<b/>",
    b"a",
    b"\"",
    b"'",
    b"=",
    b":",
    b" ",
    b"\n",
    b"&",
    b"&amp;",
    b"&#38;",
    b"&x;",
    b" a:b='c'",
    b" b=\"c\"",
    b" xmlns=''",
    b" xmlns:b=''",
    b"<![CDATA[a]]>",
    b"<?a?>",
    b"<!DOCTYPE a>",
    b"\xEF\xBB\xBF",
    b"\0",
    b"<Default>",
    b"</Default>",
    b"<Relationship>",
    b"</Relationship>",
    b"</Types>",
    b"</Relationships>",
];

/// What happens to a stream at a place.
#[derive(Clone, Copy, Debug, PartialEq, Eq)]
pub enum Damage {
    /// It ends there.
    Cut,
    /// The byte there is another.
    Change(u8),
    /// The byte there stands twice.
    Double,
    /// The byte there is missing.
    Remove,
    /// A text stands before that byte.
    Insert(&'static [u8]),
}

impl Damage {
    /// One of each, at random.
    pub fn each(below: Below) -> [Damage; 5] {
        [
            Damage::Cut,
            Damage::Change(BYTES[below(BYTES.len())]),
            Damage::Double,
            Damage::Remove,
            Damage::Insert(TEXTS[below(TEXTS.len())]),
        ]
    }

    /// A stream with this damage at a place before its end.
    pub fn to(self, stream: &[u8], at: usize) -> Vec<u8> {
        let (before, after) = stream.split_at(at);
        let byte = &after[..1];
        match self {
            Damage::Cut => before.to_vec(),
            Damage::Change(byte) => [before, &[byte], &after[1..]].concat(),
            Damage::Double => [before, byte, after].concat(),
            Damage::Remove => [before, &after[1..]].concat(),
            Damage::Insert(text) => [before, text, after].concat(),
        }
    }
}
