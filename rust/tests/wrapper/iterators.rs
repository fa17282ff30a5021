//! What the iterators yield on random packages, beside the ledger.

use crate::exact;
use crate::held::{source, Held};
use crate::support::{show, Random};
use reference::names::{fold, take_apart};
use std::collections::BTreeMap;
use zombirels::package::{Entries, Package, PackageBuf, Relationship};
use zombirels::Refusal;

/// The same from the front, from the back, and from a place amid.
fn entries<E: PartialEq + std::fmt::Debug>(
    random: &mut Random,
    iterator: Entries<'_, E>,
) -> Vec<E> {
    let yielded = exact(iterator.clone());
    let place = random.below(yielded.len() + 2);
    let mut behind = iterator.clone();
    assert_eq!(behind.nth(place).as_ref(), yielded.get(place));
    assert_eq!(behind.next().as_ref(), yielded.get(place + 1));
    let mut back: Vec<E> = iterator.rev().collect();
    back.reverse();
    assert_eq!(back, yielded);
    yielded
}

fn check_sets(random: &mut Random, held: &Held) {
    let (package, ledger) = (&held.package, &held.ledger);
    let items = entries(random, package.items().expect("a package"));
    let items = items.iter().map(|item| (item.name.as_bytes(), item.bytes));
    assert!(items.eq(ledger.items()));
    let defaults = entries(random, package.defaults().expect("a package"));
    let pairs = defaults
        .iter()
        .map(|entry| (&entry.extension, &entry.media_type));
    let pairs = pairs.map(|(key, its_type)| (key.as_bytes(), its_type.as_bytes()));
    assert!(pairs.eq(ledger.defaults()));
    let overrides = entries(random, package.overrides().expect("a package"));
    let pairs = overrides
        .iter()
        .map(|entry| (&entry.name, &entry.media_type));
    let pairs = pairs.map(|(key, its_type)| (key.as_bytes(), its_type.as_bytes()));
    assert!(pairs.eq(ledger.overrides()));
    let links = entries(random, package.relationships().expect("a package"));
    assert!(links.iter().eq(held.links.values()));
}

/// The relationships that the ledger's account has of a source.
fn links_of(held: &Held, source: &[u8]) -> Vec<Relationship> {
    let links = held.links.iter();
    let of_source = links.filter(|((key, _), _)| *key == fold(source));
    of_source.map(|(_, link)| link.clone()).collect()
}

fn check_parts(held: &Held) {
    let parts = exact(held.package.parts().expect("a package"));
    assert_eq!(parts.len(), held.ledger.parts().count());
    for (part, right) in parts.iter().zip(held.ledger.parts()) {
        assert_eq!(part.name().as_bytes(), right.name);
        assert_eq!(part.to_string(), part.name());
        assert_eq!(
            (part.len(), part.is_empty()),
            (right.bytes, right.bytes == 0)
        );
        assert_eq!(part.items().len(), right.pieces);
        let media_type = part.media_type();
        assert_eq!(media_type.as_deref().map(str::as_bytes), right.media_type);
        let mut content = vec![0; right.bytes];
        held.ledger
            .read_part(right.name, 0, &mut content)
            .expect("a part");
        assert_eq!(part.to_vec(), content);
        let pieces: Vec<&[u8]> = part.items().map(|item| item.bytes).collect();
        assert_eq!(pieces.concat(), content);
        assert_eq!(exact(part.relationships()), links_of(held, right.name));
        let origin = held.package.type_origin_to_string(right.name);
        assert_eq!(Ok(part.type_origin()), origin);
        let named = held.package.part(right.name.to_ascii_uppercase());
        let named = named.expect("a part");
        assert_eq!(named.name(), part.name());
        assert!(named.items().eq(part.items()));
        assert_eq!(named.into_name().as_bytes(), right.name);
    }
}

/// The groups that are no part, each by the prefix of its first item.
fn check_unfinished(held: &Held) -> usize {
    let mut groups = BTreeMap::new();
    for (name, _) in held.ledger.items() {
        let prefix = take_apart(name).expect("an item name").prefix;
        groups.entry(fold(prefix)).or_insert(prefix);
    }
    let is_part = |name: &[u8]| held.ledger.read_part(name, 0, &mut []).is_ok();
    let lacking = groups.values().filter(|name| !is_part(name));
    let unfinished: Vec<String> = held.package.unfinished().expect("a package").collect();
    assert!(unfinished.iter().map(String::as_bytes).eq(lacking.copied()));
    for name in &unfinished {
        let part = held.package.part(name);
        assert_eq!(part.err(), Some(Refusal::NotHeld));
    }
    unfinished.len()
}

#[test]
fn beside_the_ledger() {
    let mut random = Random::new("iterators");
    let mut sums = [0; 5];
    for _ in 0..600 {
        let capacity = random.pick(&[300, 3000, 3000]);
        let calls = random.below(150);
        let held = Held::new(&mut random, capacity, calls);
        check_sets(&mut random, &held);
        check_parts(&held);
        let lacking = check_unfinished(&held);
        let source = source(&mut random);
        let asked = random.flip_case(&source);
        let links = held.package.relationships_of(&asked).expect("a source");
        assert_eq!(
            entries(&mut random, links),
            links_of(&held, &source),
            "{}",
            show(&asked)
        );
        let totals = held.package.totals().expect("a package");
        let counts = [totals.items, totals.parts, lacking, held.links.len(), 1];
        for (sum, count) in sums.iter_mut().zip(counts) {
            *sum += count;
        }
    }
    println!("iterators: items, parts, unfinished, relationships, packages: {sums:?}");
    assert!(sums.iter().all(|&sum| sum >= 600));
}

/// Nothing is yielded of an empty package; what is none is refused, and so is
/// what is no source.
#[test]
fn empty_and_refused() {
    let empty = PackageBuf::start(100).expect("a capacity");
    assert_eq!(exact(empty.items().expect("a package")), []);
    assert_eq!(exact(empty.defaults().expect("a package")), []);
    assert_eq!(exact(empty.overrides().expect("a package")), []);
    assert_eq!(exact(empty.relationships().expect("a package")), []);
    assert_eq!(exact(empty.relationships_of("/a").expect("a source")), []);
    assert!(exact(empty.parts().expect("a package")).is_empty());
    assert_eq!(empty.unfinished().expect("a package").count(), 0);
    for (source, refusal) in [
        ("", Refusal::NotAPartName),
        ("a", Refusal::NotAPartName),
        ("/a/", Refusal::NotAPartName),
        ("/_rels/.rels", Refusal::Reserved),
    ] {
        assert_eq!(empty.relationships_of(source).err(), Some(refusal));
    }

    let none = Package::open(b"no package");
    let refused = Some(Refusal::NotAPackage);
    assert_eq!(none.items().err(), refused);
    assert_eq!(none.defaults().err(), refused);
    assert_eq!(none.overrides().err(), refused);
    assert_eq!(none.relationships().err(), refused);
    assert_eq!(none.relationships_of("").err(), refused);
    assert_eq!(none.parts().err().map(|refusal| refusal.number()), Some(1));
    assert_eq!(none.unfinished().err(), refused);
}
