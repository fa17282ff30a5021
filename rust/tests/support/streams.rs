//! Streams to be read: random ones, accepted, too deep or damaged, and such of
//! given entries.

use super::Random;
use reference::examples::streams::{Kind, DEFAULT, RELATIONSHIP};
use reference::random_streams::{self, Damage};

/// A types stream, damaged once in so many times.
pub fn types(random: &mut Random, times: usize) -> Vec<u8> {
    let made = random_streams::types(&mut |end| random.below(end));
    perhaps_damaged(random, made.bytes, times)
}

/// A Relationships part, damaged once in so many times.
pub fn relationships(random: &mut Random, times: usize) -> Vec<u8> {
    let made = random_streams::relationships(&mut |end| random.below(end));
    perhaps_damaged(random, made.bytes, times)
}

/// The stream, or one that is damaged at a place.
pub fn perhaps_damaged(random: &mut Random, stream: Vec<u8>, times: usize) -> Vec<u8> {
    if stream.is_empty() || !random.once_in(times) {
        return stream;
    }
    let damages = Damage::each(&mut |end| random.below(end));
    let at = random.below(stream.len());
    random.pick(&damages).to(&stream, at)
}

/// A types stream of these entries.
pub fn types_of(entries: &[Vec<u8>]) -> Vec<u8> {
    stream_of(&DEFAULT, entries)
}

/// A Relationships part of these entries.
pub fn relationships_of(entries: &[Vec<u8>]) -> Vec<u8> {
    stream_of(&RELATIONSHIP, entries)
}

fn stream_of(kind: &Kind, entries: &[Vec<u8>]) -> Vec<u8> {
    [kind.stream(b"$<"), entries.concat(), kind.stream(b"$>")].concat()
}

/// The element of a Default with any bytes in its fields.
pub fn default(extension: impl AsRef<[u8]>, media_type: impl AsRef<[u8]>) -> Vec<u8> {
    let (extension, media_type) = (extension.as_ref(), media_type.as_ref());
    element(
        "Default",
        &[("Extension", extension), ("ContentType", media_type)],
    )
}

/// That of an Override.
pub fn part(name: impl AsRef<[u8]>, media_type: impl AsRef<[u8]>) -> Vec<u8> {
    let (name, media_type) = (name.as_ref(), media_type.as_ref());
    element(
        "Override",
        &[("PartName", name), ("ContentType", media_type)],
    )
}

/// That of a relationship. An empty mode is left out.
pub fn link(
    id: impl AsRef<[u8]>,
    kind: impl AsRef<[u8]>,
    mode: &str,
    target: impl AsRef<[u8]>,
) -> Vec<u8> {
    let (id, kind, target) = (id.as_ref(), kind.as_ref(), target.as_ref());
    let mut attributes = vec![("Id", id), ("Type", kind), ("Target", target)];
    if !mode.is_empty() {
        attributes.push(("TargetMode", mode.as_bytes()));
    }
    element("Relationship", &attributes)
}

fn element(name: &str, attributes: &[(&str, &[u8])]) -> Vec<u8> {
    let mut text = format!("<{name}").into_bytes();
    for (name, value) in attributes {
        text.extend_from_slice(format!(" {name}=\"").as_bytes());
        for &byte in *value {
            match byte {
                b'<' => text.extend_from_slice(b"&lt;"),
                b'&' => text.extend_from_slice(b"&amp;"),
                b'"' => text.extend_from_slice(b"&quot;"),
                _ => text.push(byte),
            }
        }
        text.push(b'"');
    }
    text.extend_from_slice(b"/>");
    text
}
