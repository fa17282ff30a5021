//! Random streams, whole, damaged and cut at every place.

use crate::support::streams::{relationships, types};
use crate::support::{count, Random};
use crate::Pair;
use reference::examples::streams::{DEFAULT, RELATIONSHIP};
use reference::random_streams::Damage;
use std::collections::BTreeMap;

/// How many streams a test reads as they are; ZOMBIRELS_STREAMS sets it.
const STREAMS: usize = 15_000;
/// How many are damaged at every place, and how long these are at most.
const DAMAGED: usize = 60;
const LENGTH_MAX: usize = 1200;

/// How often each number is answered.
type Seen = BTreeMap<u64, usize>;

fn require(test: &str, seen: &Seen, numbers: &[u64]) {
    println!("{test}: {seen:?}");
    let lacking = numbers.iter().find(|number| !seen.contains_key(number));
    assert_eq!(lacking, None, "{test}");
}

/// Streams that are whole most often, into packages with much room or little
/// that hold what the ones before left.
#[test]
fn whole() {
    let mut random = Random::new("whole streams");
    let mut pair = Pair::start(30_000);
    let (mut typed, mut linked) = (Seen::new(), Seen::new());
    for _ in 0..count("ZOMBIRELS_STREAMS", STREAMS) {
        if random.once_in(3) {
            pair.restart(random.pick(&[0, 60, 200, 3000, 30_000]));
        }
        let number = pair.types(&types(&mut random, 6));
        *typed.entry(number).or_default() += 1;
        let source = random.pick(&[&b"/"[..], b"/a", b"/A", b"/b.xml", b"", b"/_rels/.rels"]);
        let number = pair.links(source, &relationships(&mut random, 6));
        *linked.entry(number).or_default() += 1;
    }
    require("types", &typed, &[0, 4, 7, 10, 15, 19, 20]);
    require("relationships", &linked, &[0, 4, 5, 8, 9, 10, 15, 19, 20]);
}

/// Each stream cut, with a byte changed, doubled or removed and with a text put
/// in, at each of its places.
#[test]
fn damaged_at_every_place() {
    let mut random = Random::new("damaged streams");
    let mut pair = Pair::start(3000);
    for kind in [DEFAULT, RELATIONSHIP] {
        let mut seen = Seen::new();
        let mut streams = 0;
        while streams < DAMAGED {
            let stream = match kind == DEFAULT {
                true => types(&mut random, usize::MAX),
                false => relationships(&mut random, usize::MAX),
            };
            if stream.len() > LENGTH_MAX {
                continue;
            }
            streams += 1;
            for at in 0..stream.len() {
                for damage in Damage::each(&mut |end| random.below(end)) {
                    pair.restart(3000);
                    let number = pair.read(&kind, &damage.to(&stream, at));
                    *seen.entry(number).or_default() += 1;
                }
            }
        }
        require(kind.root, &seen, &[0, 19]);
    }
}
