//! The ids of relationships are compared as they are, in either spelling of
//! their source.

use crate::support::calls::Call;
use crate::{buffer, spellings, turned, Pair};
use std::collections::BTreeSet;
use zombirels::script::Code;

const BASE: &[u8] = b"http://h/p.opc";

fn relate(source: &[u8], id: &[u8]) -> Call {
    Call::new(Code::PutRelationship, &[source, id, b"a:", b"tile"])
}

fn resolve(source: &[u8], id: &[u8]) -> Call {
    Call::new(Code::ResolveRelationship, &[source, id, BASE]).with_output(600)
}

fn unrelate(source: &[u8], id: &[u8]) -> Call {
    Call::new(Code::DropRelationship, &[source, id])
}

/// Ids that begin alike, those of one length in two cases: up to 63 bytes.
fn ids() -> Vec<Vec<u8>> {
    let mut ids = Vec::new();
    for length in 1..=63 {
        let id = vec![b'r'; length];
        let mut last = id.clone();
        last[length - 1] = b'R';
        ids.extend([id, last]);
    }
    let letters = (b'A'..=b'Z').chain(b'a'..=b'z').chain([b'_']);
    ids.extend(letters.map(|letter| vec![b'_', letter]));
    ids
}

/// Each id is held by itself, and found by its own bytes alone.
#[test]
fn in_both_cases() {
    let ids = ids();
    let held: BTreeSet<&Vec<u8>> = ids.iter().collect();
    let mut buffer = buffer(60_000);
    let mut pair = Pair::start(&mut buffer);
    let source = b"/Tiles/L3";
    for id in &ids {
        pair.expect(&relate(source, id), 0);
    }
    for source in spellings(source) {
        for id in &ids {
            pair.expect(&relate(&source, id), 10);
            pair.expect(&resolve(&source, id), 0);
            for other in spellings(id) {
                let number = if held.contains(&other) { 0 } else { 13 };
                pair.expect(&resolve(&source, &other), number);
            }
            let longer = [&id[..], b"-"].concat();
            let number = if longer.len() > 63 { 8 } else { 13 };
            pair.expect(&resolve(&source, &longer), number);
        }
        let written = Call::new(Code::WriteRelationships, &[&source]);
        pair.expect(&written.with_output(20_000), 0);
    }
    for (i, id) in ids.iter().enumerate() {
        pair.expect(&unrelate(&spellings(source)[i % 4], id), 0);
        pair.expect(&unrelate(source, id), 13);
    }
}

/// The same ids of sources that begin alike; each source has its own.
#[test]
fn of_sources_alike() {
    let sources: [&[u8]; 7] = [b"/", b"/A", b"/a-", b"/Aa", b"/a/A", b"/ab", b"/\xC3\xA9"];
    let ids: [&[u8]; 6] = [b"R", b"R1", b"Ra", b"r", b"r1", b"rA"];
    let mut buffer = buffer(5000);
    let mut pair = Pair::start(&mut buffer);
    // every pair but those on a diagonal
    let is_put = |s: usize, i: usize| s % ids.len() != i;
    for (s, source) in sources.iter().enumerate() {
        for (i, id) in ids.iter().enumerate() {
            if is_put(s, i) {
                pair.expect(&relate(source, id), 0);
            }
        }
    }
    for (s, source) in sources.iter().enumerate() {
        for source in spellings(source) {
            for (i, id) in ids.iter().enumerate() {
                let number = if is_put(s, i) { 0 } else { 13 };
                pair.expect(&resolve(&source, id), number);
            }
            let written = Call::new(Code::WriteRelationships, &[&source]);
            pair.expect(&written.with_output(2000), 0);
        }
    }
    for (s, source) in sources.iter().enumerate() {
        for (i, id) in ids.iter().enumerate() {
            let number = if is_put(s, i) { 0 } else { 13 };
            pair.expect(&unrelate(&turned(source), id), number);
        }
        for source in sources {
            let written = Call::new(Code::WriteRelationships, &[source]);
            pair.expect(&written.with_output(2000), 0);
        }
    }
}
