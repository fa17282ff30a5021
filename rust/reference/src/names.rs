//! Part names, item names, media types, extensions and ids.

mod media_types;

use crate::Refusal;
use std::cmp::Ordering;

pub use media_types::is_media_type;

/// The longest part name in bytes.
const NAME_MAX: usize = 255;
/// The longest id in bytes.
const ID_MAX: usize = 63;

/// What a byte can begin in a segment.
#[derive(Clone, Copy)]
enum Class {
    /// A character of one byte.
    Plain,
    /// A triplet.
    Percent,
    /// A character of two to four bytes.
    Lead,
    /// Nothing.
    Other,
}

static CLASSES: [Class; 256] = classes();

const fn classes() -> [Class; 256] {
    let mut table = [Class::Other; 256];
    let mut byte = 0;
    while byte < 256 {
        table[byte] = class(byte as u8);
        byte += 1;
    }
    table
}

const fn class(byte: u8) -> Class {
    match byte {
        b'A'..=b'Z' | b'a'..=b'z' | b'0'..=b'9' => Class::Plain,
        b'-' | b'.' | b'_' | b'~' => Class::Plain,
        b'!' | b'$' | b'&' | b'\'' | b'(' | b')' => Class::Plain,
        b'*' | b'+' | b',' | b';' | b'=' => Class::Plain,
        b':' | b'@' => Class::Plain,
        b'%' => Class::Percent,
        0xC2..=0xF4 => Class::Lead,
        _ => Class::Other,
    }
}

/// Whether `text` is made of segment characters, with triplets for values
/// that `allowed` admits. The empty text is.
pub(crate) fn is_segment_text(text: &[u8], allowed: impl Fn(u8) -> bool) -> bool {
    let mut at = 0;
    while at < text.len() {
        at += match CLASSES[usize::from(text[at])] {
            Class::Plain => 1,
            Class::Percent => match triplet(&text[at..]) {
                Some(value) if allowed(value) => 3,
                _ => return false,
            },
            Class::Lead => match ucschar_length(&text[at..]) {
                Some(length) => length,
                None => return false,
            },
            Class::Other => return false,
        };
    }
    true
}

/// The value of the triplet that `text` begins with, if it does.
pub(crate) fn triplet(text: &[u8]) -> Option<u8> {
    match text {
        [b'%', high, low, ..] => Some(hex_digit(*high)? << 4 | hex_digit(*low)?),
        _ => None,
    }
}

fn hex_digit(byte: u8) -> Option<u8> {
    match byte {
        b'0'..=b'9' => Some(byte - b'0'),
        b'A'..=b'F' => Some(byte - b'A' + 10),
        b'a'..=b'f' => Some(byte - b'a' + 10),
        _ => None,
    }
}

/// The triplet rule of names: no slashes, and nothing that needs no triplet.
fn is_allowed_triplet(value: u8) -> bool {
    !matches!(value, b'/' | b'\\' | b'-' | b'.' | b'_' | b'~') && !value.is_ascii_alphanumeric()
}

/// The length of the ucschar that `text` begins with, if it does. Overlong
/// forms, surrogates and values above 10FFFF are no characters.
fn ucschar_length(text: &[u8]) -> Option<usize> {
    let (length, code, least) = match *text {
        [a @ 0xC0..=0xDF, b, ..] => (2, bits(a, 0x1F) << 6 | tail(b)?, 0x80),
        [a @ 0xE0..=0xEF, b, c, ..] => (3, bits(a, 0x0F) << 12 | tail(b)? << 6 | tail(c)?, 0x800),
        [a @ 0xF0..=0xF7, b, c, d, ..] => {
            let code = bits(a, 0x07) << 18 | tail(b)? << 12 | tail(c)? << 6 | tail(d)?;
            (4, code, 0x1_0000)
        }
        _ => return None,
    };
    (code >= least && is_ucschar(code)).then_some(length)
}

fn bits(byte: u8, mask: u8) -> u32 {
    u32::from(byte & mask)
}

/// The six bits of a continuation byte.
fn tail(byte: u8) -> Option<u32> {
    (byte & 0xC0 == 0x80).then_some(bits(byte, 0x3F))
}

/// ucschar of RFC 3987.
fn is_ucschar(code: u32) -> bool {
    match code {
        0xA0..=0xD7FF | 0xF900..=0xFDCF | 0xFDF0..=0xFFEF => true,
        0x1_0000..=0xD_FFFF => code & 0xFFFF <= 0xFFFD,
        0xE_1000..=0xE_FFFD => true,
        _ => false,
    }
}

/// Whether `name` is a part name.
pub fn is_part_name(name: &[u8]) -> bool {
    match name {
        [b'/', segments @ ..] if name.len() <= NAME_MAX => {
            segments.split(|&byte| byte == b'/').all(is_segment)
        }
        _ => false,
    }
}

fn is_segment(segment: &[u8]) -> bool {
    match segment.last() {
        None | Some(b'.') => false,
        Some(_) => is_segment_text(segment, is_allowed_triplet),
    }
}

/// The folding of `text`: A to Z become a to z.
pub fn fold(text: &[u8]) -> Vec<u8> {
    text.to_ascii_lowercase()
}

/// Whether the foldings of `a` and `b` are equal.
pub fn is_equivalent(a: &[u8], b: &[u8]) -> bool {
    a.eq_ignore_ascii_case(b)
}

/// Whether `a`, folded, is `b`, folded, then a slash, then more.
pub fn is_derivable(a: &[u8], b: &[u8]) -> bool {
    a.len() > b.len() + 1 && a[b.len()] == b'/' && is_equivalent(&a[..b.len()], b)
}

/// The order of the foldings, byte by byte; a proper prefix comes first.
pub fn compare_folded(a: &[u8], b: &[u8]) -> Ordering {
    let a = a.iter().map(u8::to_ascii_lowercase);
    a.cmp(b.iter().map(u8::to_ascii_lowercase))
}

/// Whether the part name `name` is reserved for Relationships parts.
pub fn is_reserved(name: &[u8]) -> bool {
    let mut segments = name.rsplit(|&byte| byte == b'/');
    let last = segments.next().unwrap_or_default();
    let before = segments.next().unwrap_or_default();
    is_equivalent(before, b"_rels") && strip_rels(last).is_some()
}

/// `text` without `.rels` at its end, in either case.
pub(crate) fn strip_rels(text: &[u8]) -> Option<&[u8]> {
    let (stem, end) = text.split_at_checked(text.len().checked_sub(5)?)?;
    is_equivalent(end, b".rels").then_some(stem)
}

/// What follows the last dot of the name's last segment.
pub fn extension(name: &[u8]) -> Option<&[u8]> {
    let last = &name[after_last_slash(name)..];
    let dot = last.iter().rposition(|&byte| byte == b'.')?;
    Some(&last[dot + 1..])
}

/// Where the last segment of `name` starts.
pub(crate) fn after_last_slash(name: &[u8]) -> usize {
    let slash = name.iter().rposition(|&byte| byte == b'/');
    slash.map_or(0, |slash| slash + 1)
}

/// Judges a part name that must not be reserved.
pub fn check_unreserved(name: &[u8]) -> Result<(), Refusal> {
    if !is_part_name(name) {
        Err(Refusal::NotAPartName)
    } else if is_reserved(name) {
        Err(Refusal::Reserved)
    } else {
        Ok(())
    }
}

/// Judges the source of a relationship: `/` or an unreserved part name.
pub fn check_source(source: &[u8]) -> Result<(), Refusal> {
    if source == b"/" {
        Ok(())
    } else {
        check_unreserved(source)
    }
}

/// The mark of a piece: its number, and whether it is the last.
#[derive(Clone, Copy, Debug, PartialEq, Eq)]
pub struct Piece {
    pub number: u16,
    pub last: bool,
}

/// An item name taken apart; a whole item has no piece mark.
#[derive(Clone, Copy, Debug, PartialEq, Eq)]
pub struct ItemName<'a> {
    pub prefix: &'a [u8],
    pub piece: Option<Piece>,
}

/// Takes an item name apart, or refuses it with 6 or 4. Reserved names pass.
pub fn take_apart(name: &[u8]) -> Result<ItemName<'_>, Refusal> {
    let slash = name.iter().rposition(|&byte| byte == b'/');
    let slash = slash.ok_or(Refusal::NotAPartName)?;
    let end = &name[slash + 1..];
    let (prefix, piece) = if end.first() == Some(&b'[') {
        let piece = read_suffix(end).ok_or(Refusal::BadSuffix)?;
        (&name[..slash], Some(piece))
    } else {
        (name, None)
    };
    if is_part_name(prefix) {
        Ok(ItemName { prefix, piece })
    } else {
        Err(Refusal::NotAPartName)
    }
}

/// Reads `[k].piece` or `[k].last.piece`.
fn read_suffix(text: &[u8]) -> Option<Piece> {
    let text = text.strip_prefix(b"[")?;
    let close = text.iter().position(|&byte| byte == b']')?;
    let number = read_piece_number(&text[..close])?;
    let mark = &text[close + 1..];
    let last = is_equivalent(mark, b".last.piece");
    (last || is_equivalent(mark, b".piece")).then_some(Piece { number, last })
}

/// Reads 0 to 9999 without leading zeros.
fn read_piece_number(digits: &[u8]) -> Option<u16> {
    match digits {
        [] | [_, _, _, _, _, ..] | [b'0', _, ..] => None,
        _ => digits.iter().try_fold(0, |number, digit| match digit {
            b'0'..=b'9' => Some(number * 10 + u16::from(digit - b'0')),
            _ => None,
        }),
    }
}

/// Whether `text` is an extension that a Default can have.
pub fn is_extension(text: &[u8]) -> bool {
    (1..=31).contains(&text.len())
        && !text.contains(&b'.')
        && is_segment_text(text, is_allowed_triplet)
}

/// Whether `text` is the id of a relationship.
pub fn is_id(text: &[u8]) -> bool {
    text.len() <= ID_MAX && is_made_like_id(text)
}

/// Whether `text` is an id but for its length, which may be any.
pub(crate) fn is_made_like_id(text: &[u8]) -> bool {
    let is_tail = |b: &u8| b.is_ascii_alphanumeric() || matches!(b, b'.' | b'_' | b'-');
    match text {
        [first, rest @ ..] => is_id_start(*first) && rest.iter().all(is_tail),
        [] => false,
    }
}

/// Whether an id can begin with `byte`.
pub(crate) fn is_id_start(byte: u8) -> bool {
    byte.is_ascii_alphabetic() || byte == b'_'
}

#[cfg(test)]
mod tests;
