//! Judging and comparing typical names: the archive beside the reference.

mod support;

use reference::{iri as ref_iri, names as ref_names};
use zombirels::{iri, names};

/// How often a round goes through all names.
const PASSES: usize = 500;

/// 200 names as a slide has them: tiles, pieces, some UTF-8 and triplets.
fn typical_names() -> Vec<Vec<u8>> {
    let mut names = Vec::new();
    for i in 0..200 {
        let (row, column, level) = (i * 7 % 40, i * 13 % 64, i % 5);
        let tile = format!("tiles/L{level}/r{row:03}c{column:03}.tiff");
        names.push(match i % 10 {
            0 => format!("/slides/2026/ovary-17/{tile}/[{i}].piece"),
            1 => format!("/Slides/2026/Ovary-17/{tile}/[{}].LAST.piece", i + 9000),
            2 => format!("/slides/2026/Klinik-Süd/{tile}"),
            3 => format!("/slides/2026/left%20ovary/{tile}"),
            4 => format!("/SLIDES/2026/OVARY-17/tiles/L{level}/sheet-{i}.xml"),
            // equivalent to its neighbour
            5 => format!(
                "/slides/2026/ovary-17/tiles/L{}/sheet-{}.xml",
                (i - 1) % 5,
                i - 1
            ),
            _ => format!("/slides/2026/ovary-17/{tile}"),
        });
    }
    names.into_iter().map(String::into_bytes).collect()
}

fn typical_media_types() -> Vec<Vec<u8>> {
    let types = [
        "image/tiff",
        "text/xml",
        "application/octet-stream",
        "application/vnd.openxmlformats-package.relationships+xml",
    ];
    (0..200).map(|i| types[i % types.len()].into()).collect()
}

/// 200 media types with one to three parameters.
fn typical_parameters() -> Vec<Vec<u8>> {
    let media_type = |i: usize| match i % 4 {
        0 => format!("image/tiff;page={i}"),
        1 => "text/xml;charset=utf-8".to_string(),
        2 => format!("image/tiff;page={};level={}", i % 90, i % 5),
        _ => format!("application/vnd.example.tile+xml;version=1.0;row={i};column=44"),
    };
    (0..200).map(|i| media_type(i).into_bytes()).collect()
}

fn typical_iris() -> Vec<Vec<u8>> {
    let iri = |i: usize| match i % 4 {
        0 => format!("http://slides.example.org/2026/ovary-17?level={i}#tile"),
        1 => format!("../tiles/L3/r{i:03}c044.tiff"),
        2 => format!("http://schemas.example.org/relationships/tile-{i}"),
        _ => format!("/slides/2026/Süd%20{i}/count.xml"),
    };
    (0..200).map(|i| iri(i).into_bytes()).collect()
}

/// Times a call on each text and its neighbour.
fn compare(
    what: &str,
    texts: &[Vec<u8>],
    archive: impl Fn(&[u8], &[u8]) -> usize,
    reference: impl Fn(&[u8], &[u8]) -> usize,
) {
    let neighbour = |i: usize| &texts[(i + 1) % texts.len()];
    support::compare(
        what,
        PASSES,
        texts.len(),
        |i| archive(&texts[i], neighbour(i)),
        |i| reference(&texts[i], neighbour(i)),
    );
}

/// An item name's answer as one number, the same on both sides.
fn item_number(prefix: &[u8], piece: Option<(u16, bool)>) -> usize {
    let (number, last) = piece.map_or((0, false), |(k, last)| (usize::from(k) + 1, last));
    prefix.len() + number * 1000 + usize::from(last)
}

fn taken_by_archive(name: &[u8]) -> usize {
    let item = zombirels::names::take_apart(name);
    item.map_or(0, |item| {
        item_number(item.prefix, item.piece.map(|p| (p.number, p.last)))
    })
}

fn taken_by_reference(name: &[u8]) -> usize {
    let item = reference::names::take_apart(name);
    item.map_or(0, |item| {
        item_number(item.prefix, item.piece.map(|p| (p.number, p.last)))
    })
}

/// The prefixes of item names.
fn prefixes(names: &[Vec<u8>]) -> Vec<Vec<u8>> {
    let prefix = |name: &Vec<u8>| {
        let item = zombirels::names::take_apart(name).expect("an item name");
        item.prefix.to_vec()
    };
    names.iter().map(prefix).collect()
}

/// Judges each text, and takes item names apart.
fn judgements(texts: &[Vec<u8>], parts: &[Vec<u8>]) {
    compare(
        "is_part_name",
        parts,
        |a, _| usize::from(names::is_part_name(a)),
        |a, _| usize::from(ref_names::is_part_name(a)),
    );
    compare(
        "take_apart",
        texts,
        |a, _| taken_by_archive(a),
        |a, _| taken_by_reference(a),
    );
    for (what, types) in [
        ("is_media_type", typical_media_types()),
        ("is_media_type, parameters", typical_parameters()),
    ] {
        compare(
            what,
            &types,
            |a, _| usize::from(names::is_media_type(a)),
            |a, _| usize::from(ref_names::is_media_type(a)),
        );
    }
    compare(
        "is_iri",
        &typical_iris(),
        |a, _| usize::from(iri::is_iri(a)),
        |a, _| usize::from(ref_iri::is_iri(a)),
    );
}

/// Compares each name with its neighbour.
fn comparisons(parts: &[Vec<u8>]) {
    compare(
        "is_equivalent",
        parts,
        |a, b| usize::from(names::is_equivalent(a, b)),
        |a, b| usize::from(ref_names::is_equivalent(a, b)),
    );
    compare(
        "compare_folded",
        parts,
        |a, b| names::compare_folded(a, b) as usize,
        |a, b| ref_names::compare_folded(a, b) as usize,
    );
}

fn main() {
    let texts = typical_names();
    let parts = prefixes(&texts);
    support::heading();
    judgements(&texts, &parts);
    comparisons(&parts);
}
