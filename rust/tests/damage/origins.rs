//! Type origins on damaged packages that hold many types.

use crate::cuts::damage;
use crate::random::name;
use crate::support::calls::Call;
use crate::support::{self, Random};
use crate::{make, watch, Seen, CALLS, ORIGIN_NUMBERS};
use zombirels::package::{Package, OVERHEAD};
use zombirels::script::Code;

const EXTENSIONS: &[&[u8]] = &[b"tiff", b"TIFF", b"Xml", b"e"];

/// A part name of the package, with an extension or without.
fn part(random: &mut Random) -> Vec<u8> {
    let stem = format!("/t{}", random.below(10));
    let extension = random.pick(&["", ".tiff", ".xml", ".E", ".none"]);
    let name = [stem.as_bytes(), extension.as_bytes()].concat();
    random.flip_case(&name)
}

/// Whole parts and parts in one piece, Overrides of some of them and Defaults
/// of their extensions, put in any order, with gaps from dropped ones.
fn package(random: &mut Random) -> Box<[u8]> {
    let capacity = 1000 + random.below(2000);
    let spare = random.pick(&[0, 0, 300]);
    let mut buffer = vec![0; capacity + OVERHEAD + spare].into_boxed_slice();
    let package = Package::start(&mut buffer, capacity as u64).expect("room");
    for _ in 0..20 + random.below(60) {
        let name = part(random);
        let extension = random.pick(EXTENSIONS);
        match random.below(8) {
            0 => drop(package.put_default(extension, b"image/tiff")),
            1 if random.once_in(4) => drop(package.drop_default(extension)),
            1 | 2 => drop(package.put_override(&name, b"text/xml;q=1")),
            3 if random.once_in(4) => drop(package.drop_override(&name)),
            4 => drop(package.put_item([&name[..], b"/[0].last.piece"].concat(), b"tile")),
            _ => drop(package.put_item(&name, b"tile")),
        }
    }
    buffer
}

/// A type origin of one of the parts, or of any name, with any output.
fn call(random: &mut Random) -> Call {
    let name = match random.below(8) {
        0 => name(random),
        _ => part(random),
    };
    let lent = random.pick(&[0, 1, 3, 4, 7, 8, 255, 255]);
    Call::new(Code::TypeOrigin, &[&name]).with_output(lent)
}

#[test]
fn many_types() {
    watch();
    let test = "many types";
    let mut random = Random::new(test);
    let mut seen = Seen::default();
    let calls = support::count("ZOMBIRELS_CALLS", CALLS);
    while seen.calls < calls {
        let mut buffer = package(&mut random);
        damage(&mut random, &mut buffer);
        for _ in 0..6 {
            let call = call(&mut random);
            make(&mut random, &mut seen, &mut buffer, &call);
        }
    }
    seen.print(test);
    seen.check(Code::TypeOrigin, &ORIGIN_NUMBERS);
    assert!(seen.origins.keys().eq(&[0, 1, 2]), "{:?}", seen.origins);
}
