//! Tags, attributes, comments and blanks: what is written between `<` and `>`.
//!
//! Each function takes what it reads off the start of `rest`, or answers none
//! if that isn't there.

use super::Value;
use crate::names::is_made_like_id;
use std::borrow::Cow;
use std::collections::BTreeSet;

/// The named entities of XML 1.0, and what they stand for.
const ENTITIES: [(&[u8], u8); 5] = [
    (b"&lt;", b'<'),
    (b"&gt;", b'>'),
    (b"&amp;", b'&'),
    (b"&quot;", b'"'),
    (b"&apos;", b'\''),
];

/// A start tag or an empty tag.
pub(super) struct Tag<'a> {
    pub(super) name: &'a [u8],
    attributes: Vec<(&'a [u8], Value<'a>)>,
    pub(super) empty: bool,
}

impl<'a> Tag<'a> {
    /// The values of the attributes of these names, prefixed ones passed over;
    /// none if there is any other.
    pub(super) fn own<const N: usize>(&self, names: [&str; N]) -> Option<[Option<Value<'a>>; N]> {
        let mut values = [const { None }; N];
        for (name, value) in &self.attributes {
            if !is_prefixed(name) {
                let at = names.iter().position(|own| own.as_bytes() == *name)?;
                values[at] = Some(value.clone());
            }
        }
        Some(values)
    }
}

/// Whether a name has a prefix.
pub(super) fn is_prefixed(name: &[u8]) -> bool {
    name.contains(&b':')
}

/// Whether `byte` is a blank.
pub(super) fn is_blank(byte: &u8) -> bool {
    matches!(byte, b' ' | b'\t' | b'\r' | b'\n')
}

/// `<`, a name, attributes with blanks before each, `>` or `/>`.
pub(super) fn start_tag<'a>(rest: &mut &'a [u8]) -> Option<Tag<'a>> {
    expect(rest, b"<")?;
    let name = name(rest)?;
    let mut attributes = Vec::new();
    let mut seen = BTreeSet::new();
    loop {
        let parted = blanks(rest);
        let empty = rest.starts_with(b"/");
        if empty || rest.starts_with(b">") {
            expect(rest, if empty { b"/>" } else { b">" })?;
            return Some(Tag {
                name,
                attributes,
                empty,
            });
        }
        let (name, value) = attribute(rest)?;
        if !parted || !seen.insert(name) {
            return None;
        }
        attributes.push((name, value));
    }
}

/// `</`, a name, blanks and `>`: the name.
pub(super) fn end_tag<'a>(rest: &mut &'a [u8]) -> Option<&'a [u8]> {
    expect(rest, b"</")?;
    let name = name(rest)?;
    blanks(rest);
    expect(rest, b">")?;
    Some(name)
}

/// A comment, which ends at the first `--` in it.
pub(super) fn comment(rest: &mut &[u8]) -> Option<()> {
    expect(rest, b"<!--")?;
    let end = rest.windows(2).position(|pair| pair == b"--")?;
    *rest = &rest[end..];
    expect(rest, b"-->")
}

fn expect(rest: &mut &[u8], text: &[u8]) -> Option<()> {
    *rest = rest.strip_prefix(text)?;
    Some(())
}

/// Takes all blanks; whether there were any.
fn blanks(rest: &mut &[u8]) -> bool {
    let end = rest.iter().position(|byte| !is_blank(byte));
    let count = end.unwrap_or(rest.len());
    *rest = &rest[count..];
    count > 0
}

/// A name, perhaps with a prefix and a colon before it.
fn name<'a>(rest: &mut &'a [u8]) -> Option<&'a [u8]> {
    let ends = |byte: &u8| is_blank(byte) || matches!(byte, b'=' | b'/' | b'>');
    let end = rest.iter().position(ends)?;
    let (name, behind) = rest.split_at(end);
    *rest = behind;
    let mut parts = name.splitn(2, |&byte| byte == b':');
    parts.all(is_made_like_id).then_some(name)
}

/// A name, `=` and a value, perhaps with blanks around the `=`.
fn attribute<'a>(rest: &mut &'a [u8]) -> Option<(&'a [u8], Value<'a>)> {
    let name = name(rest)?;
    blanks(rest);
    expect(rest, b"=")?;
    blanks(rest);
    Some((name, value(rest)?))
}

/// A value in quotes of either kind, decoded.
fn value<'a>(rest: &mut &'a [u8]) -> Option<Value<'a>> {
    let (&quote, after) = rest.split_first()?;
    if !matches!(quote, b'"' | b'\'') {
        return None;
    }
    let end = after.iter().position(|&byte| byte == quote)?;
    *rest = &after[end + 1..];
    decode(&after[..end])
}

/// What stands between the quotes, its entities decoded once.
fn decode(raw: &[u8]) -> Option<Value<'_>> {
    if raw.contains(&b'<') {
        return None;
    }
    if !raw.contains(&b'&') {
        return Some(Cow::Borrowed(raw));
    }
    let mut rest = raw;
    let mut value = Vec::with_capacity(raw.len());
    while let Some(at) = rest.iter().position(|&byte| byte == b'&') {
        value.extend_from_slice(&rest[..at]);
        rest = &rest[at..];
        let stands = |(entity, _): &&(&[u8], u8)| rest.starts_with(entity);
        let (entity, byte) = ENTITIES.iter().find(stands)?;
        value.push(*byte);
        rest = &rest[entity.len()..];
    }
    value.extend_from_slice(rest);
    Some(Cow::Owned(value))
}
