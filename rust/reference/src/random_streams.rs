//! Random streams, for the tests of both implementations: accepted ones with
//! all that they may hold, ones that are too deep, and damage to them.
//!
//! They are made without the reader: what is to be read is known beforehand.

mod damage;
mod elements;
mod fields;
mod writer;

use crate::examples::streams::{Kind, DECLARATION, DEFAULT, RELATIONSHIP};
use crate::streams::{RelationshipEntry, TypesEntry};
pub use damage::Damage;
use fields::{relationship_entry, types_entry};
use writer::Writer;

/// A source of random numbers, each below what it is asked for.
pub type Below<'a> = &'a mut dyn FnMut(usize) -> usize;

/// A stream, and what reading it is to answer.
pub struct Made<E> {
    pub bytes: Vec<u8>,
    /// Its entries in their order.
    pub entries: Vec<E>,
    /// Where its first start tag of depth 17 begins, if it has one: that gives
    /// 20.
    pub deep: Option<usize>,
    /// Where its root ends.
    pub end: usize,
}

/// An entry's element and its attributes.
struct Fields {
    element: &'static str,
    attributes: Vec<(&'static str, Vec<u8>)>,
}

/// A types stream.
pub fn types(below: Below) -> Made<TypesEntry<'static>> {
    let count = count(below, 60);
    let rows = (0..count)
        .map(|number| types_entry(below, number))
        .collect();
    stream(below, &DEFAULT, rows)
}

/// A Relationships part.
pub fn relationships(below: Below) -> Made<RelationshipEntry<'static>> {
    let count = count(below, 250);
    let rows = (0..count).map(|number| relationship_entry(below, number));
    let rows = rows.collect();
    stream(below, &RELATIONSHIP, rows)
}

/// A few entries most often, else about as many as a set takes.
fn count(below: Below, many: usize) -> usize {
    match below(60) {
        0 => many + below(12),
        _ => below(5),
    }
}

/// A stream of that kind with these entries.
fn stream<E>(below: Below, kind: &Kind, rows: Vec<(E, Fields)>) -> Made<E> {
    let deepest = if below(4) == 0 { 17 + below(4) } else { 16 };
    let mut writer = Writer::new(below, deepest);
    if writer.once_in(2) {
        writer.text(DECLARATION);
    }
    writer.blanks_and_comments();
    let entries = writer.root(kind, rows);
    let end = writer.out.len();
    writer.blanks_and_comments();
    Made {
        bytes: writer.out,
        entries,
        deep: writer.deep,
        end,
    }
}
