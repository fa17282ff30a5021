//! Calls that answer a `Vec` or a `String`, beside those over a lent output.

use crate::held::{source, Held, SEGMENTS};
use crate::support::{show, Random, Tally};
use zombirels::iri;
use zombirels::package::{Package, TypeOrigin};
use zombirels::Refusal;

/// What a call writes to an output that is long enough.
fn lent(call: impl FnOnce(&mut [u8]) -> Result<usize, Refusal>) -> Result<String, Refusal> {
    let mut out = vec![7; 100_000];
    let length = call(&mut out)?;
    assert!(out[length..].iter().all(|&byte| byte == 7));
    out.truncate(length);
    Ok(String::from_utf8(out).expect("a text"))
}

fn compare_parts(package: &Package, name: &[u8], tally: &mut Tally) {
    let content = lent_bytes(|out| package.read_part(name, 0, out));
    assert_eq!(package.read_part_to_vec(name), content, "{}", show(name));
    let media_type = lent(|out| package.media_type(name, out));
    assert_eq!(package.media_type_to_string(name), media_type);
    let mut out = [7; 255];
    let origin = package.type_origin(name, &mut out);
    let text = |key: &[u8]| String::from_utf8(key.to_vec()).expect("a text");
    let origin = origin.map(|origin| match origin {
        TypeOrigin::Override(key) => TypeOrigin::Override(text(key)),
        TypeOrigin::Default(key) => TypeOrigin::Default(text(key)),
        TypeOrigin::Neither => TypeOrigin::Neither,
    });
    assert_eq!(package.type_origin_to_string(name), origin);
    tally.add(content.is_ok());
}

fn lent_bytes(call: impl FnOnce(&mut [u8]) -> Result<usize, Refusal>) -> Result<Vec<u8>, Refusal> {
    let mut out = vec![7; 10_000];
    let length = call(&mut out)?;
    out.truncate(length);
    Ok(out)
}

fn compare_entries(package: &Package) {
    for set in 0..5 {
        for field in 0..6 {
            for position in 0..70 {
                let bytes = lent_bytes(|out| {
                    let answer = package.entry_at(set, position, field, out)?;
                    Ok(answer.length)
                });
                assert_eq!(package.entry_at_to_vec(set, position, field), bytes);
            }
        }
    }
}

fn compare_links(package: &Package, random: &mut Random, tally: &mut Tally) {
    let source = source(random);
    let id = random.pick(&[b"r", b"R", b"_", b"1"]);
    let base = random.pick(&[&b"http://h/p.opc#f"[..], b"a:", b"none"]);
    let mut out = [7; 2000];
    let resolved = package.resolve_relationship(&source, id, base, &mut out);
    let twin = package.resolve_relationship_to_string(&source, id, base);
    tally.add(resolved.is_ok());
    match (resolved, twin) {
        (Ok(resolved), Ok(twin)) => {
            assert_eq!(twin.iri.as_bytes(), &out[..resolved.length]);
            assert_eq!((twin.mode, twin.held), (resolved.mode, resolved.held));
        }
        (resolved, twin) => assert_eq!(resolved.err(), twin.err()),
    }
    let stream = lent(|out| package.write_relationships(&source, out));
    assert_eq!(package.write_relationships_to_string(&source), stream);
}

#[test]
fn of_packages() {
    let mut random = Random::new("twins of packages");
    let mut tally = Tally::default();
    for _ in 0..200 {
        let held = Held::new(&mut random, 3000, 120);
        let package = &held.package;
        for _ in 0..20 {
            let name = random.name(SEGMENTS, 2);
            compare_parts(package, &name, &mut tally);
            compare_links(package, &mut random, &mut tally);
        }
        compare_parts(package, b"no name", &mut tally);
        for position in 0..60 {
            let name = lent(|out| package.part_at(position, out));
            assert_eq!(package.part_at_to_string(position), name);
        }
        compare_entries(package);
        let stream = lent(|out| package.write_types(out));
        assert_eq!(package.write_types_to_string(), stream);
    }
    tally.require("twins of packages", 8000);
}

const FRAGMENTS: &[&[u8]] = &[
    b"a",
    b"/",
    b"..",
    b"/_rels",
    b".rels",
    b"http://h",
    b":",
    b"?",
    b"#",
    b"%3A",
    b",",
    b"&",
    b"pack://",
    b"http%3A,,h",
    b"\xC3\xA9",
    b"\xFF",
    b" ",
    b"/b.xml",
];

const TEXTS: &[&[u8]] = &[
    b"http://h/p.opc",
    b"/a/b.xml",
    b"/",
    b"/_rels/.rels",
    b"/a/_rels/b.xml.rels",
    b"pack://http%3A,,h,p.opc/a",
    b"pack://http%3A,,h,p.opc",
    b"../b",
];

/// What a call gives over a lent output, and its twin.
type Both = (Result<String, Refusal>, Result<String, Refusal>);

fn of_one(a: &[u8]) -> [Both; 3] {
    let address = iri::resolve_pack_iri_to_string(a);
    [
        (
            lent(|out| iri::relationships_part(a, out)),
            iri::relationships_part_to_string(a),
        ),
        (
            lent(|out| iri::source_of_relationships_part(a, out)),
            iri::source_of_relationships_part_to_string(a),
        ),
        (
            lent(|out| iri::resolve_pack_iri(a, out).map(|both| both.package + both.part)),
            address.map(|address| address.package + &address.part.unwrap_or_default()),
        ),
    ]
}

fn of_two(a: &[u8], b: &[u8]) -> [Both; 3] {
    [
        (
            lent(|out| iri::resolve_reference(a, b, out)),
            iri::resolve_reference_to_string(a, b),
        ),
        (
            lent(|out| iri::resolve_target(a, b, out)),
            iri::resolve_target_to_string(a, b),
        ),
        (
            lent(|out| iri::compose_pack_iri(a, b, out)),
            iri::compose_pack_iri_to_string(a, b),
        ),
    ]
}

#[test]
fn of_iris() {
    let mut random = Random::new("twins of IRIs");
    let mut tally = Tally::default();
    let text = |random: &mut Random| match random.once_in(2) {
        true => random.pick(TEXTS).to_vec(),
        false => random.joined(FRAGMENTS, 5),
    };
    for _ in 0..20_000 {
        let (a, b) = (text(&mut random), text(&mut random));
        for (lent, twin) in of_one(&a).into_iter().chain(of_two(&a, &b)) {
            tally.add(lent.is_ok());
            assert_eq!(lent, twin, "{} {}", show(&a), show(&b));
        }
    }
    tally.require("twins of IRIs", 100_000);
}
