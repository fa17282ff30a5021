//! Resolving references and targets, composing and resolving pack IRIs and
//! naming Relationships parts: the archive beside the reference.

mod support;

use reference::{iri as ref_iri, pack as ref_pack, relationships as ref_relationships};
use zombirels::iri;

/// How often a round goes through all cases.
const PASSES: usize = 200;
const CASES: usize = 200;

/// Package IRIs as a viewer has them; every fourth has a query or a fragment.
fn package_iri(i: usize) -> Vec<u8> {
    let text = match i % 8 {
        3 => format!("http://slides.example.org/2026/ovary-{i}.opc#tile"),
        7 => format!("http://slides.example.org:8080/get?slide={i}&level=3"),
        5 => format!("file:///C:/slides/Klinik-Süd/ovary-{i}.opc"),
        _ => format!("https://slides.example.org/2026/left/ovary-{i}.opc"),
    };
    text.into_bytes()
}

/// Part names of tiles and count sheets.
fn part_name(i: usize) -> Vec<u8> {
    let (row, column, level) = (i * 7 % 40, i * 13 % 64, i % 5);
    let text = match i % 4 {
        0 => format!("/counts/reader-{i}/sheet.xml"),
        1 => format!("/tiles/Süd/L{level}/r{row:03}c{column:03}.tiff"),
        _ => format!("/slides/2026/ovary-17/tiles/L{level}/r{row:03}c{column:03}.tiff"),
    };
    text.into_bytes()
}

/// Targets as they stand in relationships of a count sheet.
fn internal_target(i: usize) -> Vec<u8> {
    let text = match i % 4 {
        0 => format!("../tiles/L3/r{i:03}c044.tiff"),
        1 => format!("/tiles/L3/r{i:03}c044.tiff"),
        2 => format!("./sheet-{i}.xml"),
        _ => format!("../../left/../right/r{i:03}.tiff"),
    };
    text.into_bytes()
}

/// References to what lies outside the package.
fn external_target(i: usize) -> Vec<u8> {
    let text = match i % 4 {
        0 => format!("http://www.example.com/atlas/figure-{i}.html#stage-2"),
        1 => format!("../2025/ovary-{i}.opc"),
        2 => format!("//atlas.example.org/figure-{i}?size=large"),
        _ => format!("key-{i}.pdf"),
    };
    text.into_bytes()
}

fn cases(case: impl Fn(usize) -> Vec<u8>) -> Vec<Vec<u8>> {
    (0..CASES).map(case).collect()
}

/// The length of a pack IRI's package, and that of the part name behind it.
fn lengths(package: usize, part: usize) -> usize {
    package * 1000 + part
}

fn main() {
    let (packages, names) = (cases(package_iri), cases(part_name));
    let (internal, external) = (cases(internal_target), cases(external_target));
    let pack_iris = cases(|i| {
        let mut out = [0; 1027];
        let length = iri::compose_pack_iri(&packages[i], &names[i], &mut out);
        out[..length.expect("a pack IRI")].to_vec()
    });
    let (mut out, mut other) = ([0; 1027], [0; 1027]);
    support::heading();
    support::compare(
        "compose pack IRI",
        PASSES,
        CASES,
        |i| iri::compose_pack_iri(&packages[i], &names[i], &mut out).expect("a text"),
        |i| ref_pack::compose(&packages[i], &names[i], &mut other).expect("a text"),
    );
    support::compare(
        "resolve pack IRI",
        PASSES,
        CASES,
        |i| {
            let found = iri::resolve_pack_iri(&pack_iris[i], &mut out).expect("a place");
            lengths(found.package, found.part)
        },
        |i| {
            let (package, part) = ref_pack::resolve(&pack_iris[i], &mut other).expect("a place");
            lengths(package, part)
        },
    );
    support::compare(
        "resolve reference",
        PASSES,
        CASES,
        |i| iri::resolve_reference(&packages[i], &external[i], &mut out).expect("a text"),
        |i| ref_iri::resolve_reference(&packages[i], &external[i], &mut other).expect("a text"),
    );
    support::compare(
        "resolve target",
        PASSES,
        CASES,
        |i| iri::resolve_target(&names[i], &internal[i], &mut out).expect("a text"),
        |i| ref_iri::resolve_target(&names[i], &internal[i], &mut other).expect("a text"),
    );
    support::compare(
        "Relationships part",
        PASSES,
        CASES,
        |i| iri::relationships_part(&names[i], &mut out).expect("a text"),
        |i| ref_relationships::relationships_part(&names[i], &mut other).expect("a text"),
    );
}
