//! Streams read into damaged packages that hold many types and relationships.

use crate::cuts::damage;
use crate::support::calls::Call;
use crate::support::streams::{self, default, link, part, relationships_of, types_of};
use crate::support::{self, Random};
use crate::{make, watch, Seen, CALLS};
use zombirels::package::{Mode, Package, OVERHEAD};
use zombirels::script::Code;

/// The numbers that the readings answer, whatever the buffer holds.
pub const TYPES_NUMBERS: [u64; 8] = [0, 1, 4, 7, 10, 15, 19, 20];
pub const RELATIONSHIPS_NUMBERS: [u64; 10] = [0, 1, 4, 5, 8, 9, 10, 15, 19, 20];

const SOURCES: &[&[u8]] = &[b"/", b"/a", b"/A/b.xml", b"/tiles/t3.tiff"];

/// Types and relationships, few or as many as there can be, with gaps from
/// dropped ones.
fn package(random: &mut Random) -> Box<[u8]> {
    let capacity = 500 + random.below(6000);
    let spare = random.pick(&[0, 0, 300]);
    let mut buffer = vec![0; capacity + OVERHEAD + spare].into_boxed_slice();
    let package = Package::start(&mut buffer, capacity as u64).expect("room");
    let (count, keys) = (random.pick(&[20, 80, 400]), random.pick(&[10, 60, 300]));
    for _ in 0..count {
        let number = random.below(keys);
        let (extension, name) = (format!("e{number}"), format!("/t{number}"));
        let (source, id) = (random.pick(SOURCES), format!("r{number}"));
        match random.below(9) {
            0 => drop(package.drop_default(extension)),
            1 => drop(package.drop_override(name)),
            2 => drop(package.drop_relationship(source, id)),
            3 | 4 => drop(package.put_default(extension, "a/b")),
            5 | 6 => drop(package.put_override(name, "image/tiff")),
            _ => drop(package.put_relationship(source, id, "a:", Mode::Internal, "b")),
        }
    }
    buffer
}

/// A stream of some entries whose keys may be held, or a random one.
fn call(random: &mut Random) -> Call {
    let source = match random.below(12) {
        0 => random.pick(&[&b""[..], b"a", b"/_rels/.rels"]).to_vec(),
        _ => {
            let source = random.pick(SOURCES);
            random.flip_case(source)
        }
    };
    match random.below(6) {
        0 => Call::new(Code::ReadTypes, &[&streams::types(random, 3)]),
        1 => {
            let stream = streams::relationships(random, 3);
            Call::new(Code::ReadRelationships, &[&source, &stream])
        }
        kind => {
            let count = random.pick(&[0, 1, 2, 5, 70, 260]);
            let first = random.below(400);
            let entry = |number: usize| match (kind, number % 2) {
                (4 | 5, _) => link(format!("r{number}"), "a:", "", "b"),
                (_, 0) => default(format!("E{number}"), "a/b;c=d"),
                _ => part(format!("/T{number}"), "image/tiff"),
            };
            let entries: Vec<Vec<u8>> = (first..first + count).map(entry).collect();
            match kind {
                4 | 5 => Call::new(
                    Code::ReadRelationships,
                    &[&source, &relationships_of(&entries)],
                ),
                _ => Call::new(Code::ReadTypes, &[&types_of(&entries)]),
            }
        }
    }
}

#[test]
fn streams_read() {
    watch();
    let test = "streams read";
    let mut random = Random::new(test);
    let mut seen = Seen::default();
    let calls = support::count("ZOMBIRELS_CALLS", CALLS);
    while seen.calls < calls {
        let mut buffer = package(&mut random);
        damage(&mut random, &mut buffer);
        for _ in 0..6 {
            let call = call(&mut random);
            make(&mut random, &mut seen, &mut buffer, &call);
        }
    }
    seen.print(test);
    seen.check(Code::ReadTypes, &TYPES_NUMBERS);
    seen.check(Code::ReadRelationships, &RELATIONSHIPS_NUMBERS);
}
