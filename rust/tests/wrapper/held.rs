//! A package beside its ledger, filled by random calls.

use crate::support::calls::Call;
use crate::support::pieces::piece;
use crate::support::Random;
use reference::ledger::Ledger;
use reference::names::fold;
use std::collections::BTreeMap;
use zombirels::package::{Mode, PackageBuf, Relationship};
use zombirels::script::Code;

/// Segments of names that collide and derive from each other.
pub const SEGMENTS: &[&[u8]] = &[
    b"a",
    b"A",
    b"b",
    b"tile",
    b"Tile.x",
    b"t.X",
    b"R&D",
    b"\xC3\xA9",
];

const TYPES: &[&[u8]] = &[b"a/b", b"image/tiff;page=2", b"x/&", b"text"];

const IDS: &[&[u8]] = &[b"r", b"R", b"r1", b"_", b"1"];

/// A package, its ledger, and the relationships that it must hold by their
/// folded sources and ids.
pub struct Held {
    pub package: PackageBuf,
    pub ledger: Ledger,
    pub links: BTreeMap<(Vec<u8>, Vec<u8>), Relationship>,
}

impl Held {
    /// So many random calls on a package of that capacity.
    pub fn new(random: &mut Random, capacity: u64, calls: usize) -> Held {
        let package = PackageBuf::start(capacity).expect("a capacity");
        let mut ledger = Ledger::default();
        let length = package.as_bytes().len() as u64;
        ledger.start(length, capacity).expect("room");
        let links = BTreeMap::new();
        let mut held = Held {
            package,
            ledger,
            links,
        };
        for _ in 0..calls {
            held.make(&random_call(random));
        }
        held
    }

    /// Makes a call on both sides.
    fn make(&mut self, call: &Call) {
        let length = self.package.as_bytes().len() as u64;
        let answer = call.by_archive(&mut self.package, &mut []);
        let right = call.by_reference(&mut self.ledger, length, &mut []);
        assert!(answer == right, "{}: {answer:?}", call.show());
        if answer.is_err() {
            return;
        }
        let [source, id, kind, target] = &call.texts;
        let key = (fold(source), id.clone());
        let text = |bytes: &[u8]| String::from_utf8(bytes.to_vec()).expect("a text");
        match call.code {
            Code::PutRelationship => {
                let link = Relationship {
                    source: text(source),
                    id: text(id),
                    kind: text(kind),
                    mode: Mode::try_from(call.number).expect("a mode"),
                    target: text(target),
                };
                self.links.insert(key, link);
            }
            Code::DropRelationship => drop(self.links.remove(&key)),
            _ => {}
        }
    }
}

fn random_call(random: &mut Random) -> Call {
    let name = random.name(SEGMENTS, 2);
    match random.below(20) {
        0..=3 => Call::new(Code::PutItem, &[&name, &some_bytes(random)]),
        4..=8 => {
            let count = 1 + random.below(3);
            let piece = piece(&name, random.below(count), count);
            Call::new(Code::PutItem, &[&piece, &some_bytes(random)])
        }
        9 => Call::new(Code::DropItem, &[&name]),
        10 => {
            let count = 1 + random.below(12) as u64;
            Call::new(Code::CutPart, &[&name]).with_number(count)
        }
        11 => Call::new(Code::JoinPart, &[&name]),
        12 => Call::new(Code::PutDefault, &[&name[1..], random.pick(TYPES)]),
        13 => Call::new(
            Code::PutDefault,
            &[random.pick(&[b"x", b"X", b"y"]), b"x/y"],
        ),
        14 | 15 => Call::new(Code::PutOverride, &[&name, random.pick(TYPES)]),
        16 => Call::new(Code::DropRelationship, &[&source(random), random.pick(IDS)]),
        _ => {
            let target = random.joined(&[b"a", b"/b", b"../", b"#f", b"&"], 4);
            let texts = [&source(random)[..], random.pick(IDS), b"a:k&", &target];
            let mode = random.below(2) as u64;
            Call::new(Code::PutRelationship, &texts).with_number(mode)
        }
    }
}

fn some_bytes(random: &mut Random) -> Vec<u8> {
    let count = random.pick(&[0, 1, 7, 40]);
    random.bytes(count)
}

/// The package or a part name.
pub fn source(random: &mut Random) -> Vec<u8> {
    match random.once_in(3) {
        true => b"/".to_vec(),
        false => random.name(SEGMENTS, 1),
    }
}
