//! What was written is read back as the same entries, and written again as the
//! same text.

use crate::support::types::media_type;
use crate::support::Random;
use zombirels::package::{Mode, PackageBuf};

const CAPACITY: u64 = 60_000;

#[rustfmt::skip]
const KEYS: &[&str] = &["a", "B", "xml", "R&D", "it's", "&amp;", "&lt", "\u{e9}", "\u{10000}", "%20", "a;b=c", "!$&'()*+,;=:@", "-_~"];

/// A word that differs from those of other numbers.
fn word(random: &mut Random, number: usize) -> String {
    let key = random.pick(KEYS);
    format!("{key}{number}")
}

/// A package with random types and relationships, few or as many as there can
/// be.
fn random_package(random: &mut Random) -> PackageBuf {
    let mut package = PackageBuf::start(CAPACITY).expect("a capacity");
    let [defaults, overrides] = [(); 2].map(|()| random.pick(&[0, 1, 5, 64]));
    for i in 0..defaults {
        let put = package.put_default(word(random, i), media_type(random));
        put.expect("room");
    }
    for i in 0..overrides {
        let name = format!("/{}", word(random, i));
        package
            .put_override(name, media_type(random))
            .expect("room");
    }
    for i in 0..random.pick(&[0, 1, 7, 256]) {
        let source = random.pick(&["/", "/a", "/A", "/x&y/Z.xml"]);
        let (id, kind) = (format!("r{i}"), format!("a:{}", word(random, i)));
        let target = word(random, i);
        let (mode, target) = match random.below(3) {
            0 => (Mode::Internal, target.replace(':', "")),
            1 => (Mode::Internal, format!("/{target}/../{target}")),
            _ => (Mode::External, format!("b:{target}?&#'&'")),
        };
        let put = package.put_relationship(source, id, kind, mode, target);
        put.expect("room");
    }
    package
}

#[test]
fn random_packages() {
    let mut random = Random::new("there and back");
    for _ in 0..300 {
        let package = random_package(&mut random);
        let charge = package.totals().expect("a package").charge;
        // just as much room as the entries take
        let mut other = PackageBuf::start(charge as u64).expect("a capacity");
        let types = package.write_types_to_string().expect("a stream");
        other.read_types(&types).expect("what was written");
        assert_eq!(other.write_types_to_string().as_ref(), Ok(&types));
        for source in ["/", "/a", "/x&y/Z.xml"] {
            let links = package.write_relationships_to_string(source);
            let links = links.expect("a stream");
            let spelled = random.flip_case(source.as_bytes());
            other.read_relationships(&spelled, &links).expect("room");
            let again = other.write_relationships_to_string(source);
            assert_eq!(again.as_ref(), Ok(&links));
            let held = other.relationships_of(source).expect("a package");
            assert!(held
                .into_iter()
                .all(|link| link.source.as_bytes() == spelled));
        }
        assert_eq!(other.totals(), package.totals());
        let entries = |package: &PackageBuf| {
            let defaults = package.defaults().expect("a package");
            let overrides = package.overrides().expect("a package");
            let defaults = defaults.map(|entry| [entry.extension, entry.media_type]);
            let overrides = overrides.map(|entry| [entry.name, entry.media_type]);
            defaults.chain(overrides).collect::<Vec<_>>()
        };
        assert_eq!(entries(&other), entries(&package));
        let links = |package: &PackageBuf| {
            let links = package.relationships().expect("a package");
            let fields = |link: zombirels::package::Relationship| {
                (link.id, link.kind, link.mode, link.target)
            };
            links.map(fields).collect::<Vec<_>>()
        };
        assert_eq!(links(&other), links(&package));
    }
}

/// One byte less of capacity, and nothing is read back.
#[test]
fn no_room_for_the_last() {
    let mut random = Random::new("no room for the last");
    for _ in 0..100 {
        let package = random_package(&mut random);
        let types = package.write_types_to_string().expect("a stream");
        let mut all = PackageBuf::start(CAPACITY).expect("a capacity");
        all.read_types(&types).expect("what was written");
        let charge = all.totals().expect("a package").charge as u64;
        if charge > 0 {
            let mut other = PackageBuf::start(charge - 1).expect("a capacity");
            let before = other.clone().into_bytes();
            let refused = other.read_types(&types).map_err(|r| r.number());
            assert_eq!(refused, Err(15));
            assert!(other.into_bytes() == before);
        }
    }
}
