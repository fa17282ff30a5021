//! Random inputs of each call, and calls that undo each other.

use crate::support::{show, Random, Tally};
use crate::texts::{
    long_path, name_text, pack_text, package_text, path, reference_text, rels_text,
};
use crate::Call;
use reference::names as ref_names;
use std::collections::BTreeMap;
use zombirels::iri;

/// Compares `count` random inputs of a call. Each of its answers, 0 and the
/// numbers of its refusals, must occur in at least one input of a hundred.
fn compare_many(
    test: &str,
    call: Call,
    count: usize,
    numbers: &[u64],
    inputs: impl Fn(&mut Random) -> (Vec<u8>, Vec<u8>),
) {
    let mut random = Random::new(test);
    let mut tally = BTreeMap::new();
    for _ in 0..count {
        let (a, b) = inputs(&mut random);
        *tally.entry(call.compare(&mut random, &a, &b)).or_insert(0) += 1;
    }
    println!("{test}: {count} inputs compared, by number: {tally:?}");
    assert!(tally.keys().eq(numbers), "{test}: {tally:?}");
    assert!(
        tally.values().all(|seen| seen * 100 > count),
        "{test}: {tally:?}"
    );
}

#[test]
fn random_references() {
    compare_many(
        "random references",
        Call::Reference,
        250_000,
        &[0, 9],
        |random| {
            let base = reference_text(random, 1);
            (base, reference_text(random, 8))
        },
    );
}

#[test]
fn random_targets() {
    compare_many(
        "random targets",
        Call::Target,
        250_000,
        &[0, 4, 5, 9],
        |random| {
            let source = name_text(random);
            let target = match random.below(5) {
                0 => reference_text(random, 8),
                4 => [path(random), b"/../_Rels/x.rels".to_vec()].concat(),
                1 => long_path(random),
                2 => name_text(random),
                _ => path(random),
            };
            (source, target)
        },
    );
}

#[test]
fn random_packages_and_names() {
    compare_many(
        "random packages and names",
        Call::Compose,
        200_000,
        &[0, 4, 9],
        |random| (package_text(random), name_text(random)),
    );
}

#[test]
fn random_pack_iris() {
    compare_many(
        "random pack IRIs",
        Call::Resolve,
        300_000,
        &[0, 9],
        |random| (pack_text(random), Vec::new()),
    );
}

#[test]
fn random_sources() {
    compare_many(
        "random sources",
        Call::RelationshipsPart,
        200_000,
        &[0, 4, 5],
        |random| (name_text(random), Vec::new()),
    );
}

#[test]
fn random_relationships_parts() {
    compare_many(
        "random Relationships parts",
        Call::SourceOf,
        200_000,
        &[0, 4],
        |random| (rels_text(random), Vec::new()),
    );
}

/// Composing and resolving returns the package IRI without its fragment, and
/// the part name.
#[test]
fn composing_then_resolving() {
    let mut random = Random::new("composing then resolving");
    let mut tally = Tally::default();
    for _ in 0..200_000 {
        let (package, name) = (package_text(&mut random), name_text(&mut random));
        let mut pack_iri = [0; 1027];
        let Ok(length) = iri::compose_pack_iri(&package, &name, &mut pack_iri) else {
            tally.add(false);
            continue;
        };
        let mut out = [0; 510];
        let lengths = iri::resolve_pack_iri(&pack_iri[..length], &mut out);
        let lengths = lengths.unwrap_or_else(|_| panic!("{} {}", show(&package), show(&name)));
        let end = package.iter().position(|&byte| byte == b'#');
        assert_eq!(
            out[..lengths.package],
            package[..end.unwrap_or(package.len())]
        );
        let part = if name == b"/" { &b""[..] } else { &name };
        assert_eq!(&out[lengths.package..][..lengths.part], part);
        tally.add(true);
    }
    tally.require("composing then resolving", 200_000);
}

/// Every source is the source of its Relationships part, which is reserved.
#[test]
fn sources_forth_and_back() {
    let mut random = Random::new("sources forth and back");
    let mut tally = Tally::default();
    for _ in 0..100_000 {
        let source = name_text(&mut random);
        let (mut part, mut back) = ([0; 266], [0; 255]);
        let Ok(length) = iri::relationships_part(&source, &mut part) else {
            tally.add(false);
            continue;
        };
        let part = &part[..length];
        let length = iri::source_of_relationships_part(part, &mut back);
        assert_eq!(length, Ok(source.len()), "{}", show(&source));
        assert_eq!(back[..source.len()], source[..]);
        assert!(
            part.len() > 255 || ref_names::is_reserved(part),
            "{}",
            show(part)
        );
        tally.add(true);
    }
    tally.require("sources forth and back", 100_000);
}
