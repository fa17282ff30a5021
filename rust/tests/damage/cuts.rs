//! Cuts and joins on damaged packages that hold parts in many pieces.

use crate::random::cut_or_join;
use crate::support::calls::Call;
use crate::support::pieces::piece;
use crate::support::{self, Random};
use crate::{make, rows, watch, Seen, CALLS, HEADER, MARK, SLOT};
use zombirels::package::{Package, OVERHEAD};
use zombirels::script::Code;

/// Parts in pieces, put in any order, and whole ones; the buffer has no byte
/// to spare most often, and at times no room is left.
fn package(random: &mut Random) -> Box<[u8]> {
    let capacity = 1000 + random.below(6000);
    let spare = random.pick(&[0, 0, 300]);
    let mut buffer = vec![0; capacity + OVERHEAD + spare].into_boxed_slice();
    let package = Package::start(&mut buffer, capacity as u64).expect("room");
    let mut items = Vec::new();
    for part in 0..1 + random.below(8) {
        let name = format!("/t{part}").into_bytes();
        match random.below(3) {
            0 => items.push(name),
            _ => {
                let count = 1 + random.below(30);
                items.extend((0..count).map(|k| piece(&name, k, count)));
            }
        }
    }
    for i in (1..items.len()).rev() {
        items.swap(i, random.below(i + 1));
    }
    let size = random.pick(&[0, 1, 20, 300]);
    for name in items {
        let bytes = random.bytes(size);
        package.put_item(&name, &bytes).ok();
    }
    if random.once_in(2) {
        // a last item that leaves no room
        let room = capacity - package.totals().expect("a package").charge;
        let bytes = random.bytes(room.saturating_sub(2));
        package.put_item(b"/a", &bytes).ok();
    }
    buffer
}

/// Changes numbers of the header and of rows: to small ones, to another row's,
/// to those at the limits, or by one.
pub fn damage(random: &mut Random, buffer: &mut [u8]) {
    let (rows, length) = (rows(buffer), buffer.len() as u32);
    for _ in 0..1 + random.below(4) {
        let field = 4 * random.below(SLOT / 4);
        let [own, other] = [(); 2].map(|()| HEADER + SLOT * random.below(rows + 1) + field);
        let at = match random.below(4) {
            0 => MARK + 4 * random.below(4),
            _ => own,
        };
        let read = |at: usize| u32::from_le_bytes(buffer[at..at + 4].try_into().expect("four"));
        let (own, other) = (read(at), read(other));
        let small = random.below(700) as u32;
        let edge = random.pick(&[0, 1, 640, length - OVERHEAD as u32, length, u32::MAX]);
        let near = own.wrapping_add(random.pick(&[1, u32::MAX, 2]));
        let number = random.pick(&[small, other, edge, near]);
        buffer[at..at + 4].copy_from_slice(&number.to_le_bytes());
    }
}

/// A cut or a join of one of the parts, or of any.
fn call(random: &mut Random) -> Call {
    let name = format!("/T{}", random.below(8)).into_bytes();
    let some = 1 + random.below(40) as u64;
    match random.below(3) {
        0 => cut_or_join(random),
        1 => Call::new(Code::CutPart, &[&name]).with_number(random.pick(&[1, 2, some, 256])),
        _ => Call::new(Code::JoinPart, &[&name]),
    }
}

#[test]
fn parts_in_pieces() {
    watch();
    let test = "parts in pieces";
    let mut random = Random::new(test);
    let mut seen = Seen::default();
    let calls = support::count("ZOMBIRELS_CALLS", CALLS);
    while seen.calls < calls {
        let mut buffer = package(&mut random);
        damage(&mut random, &mut buffer);
        for _ in 0..6 {
            let call = call(&mut random);
            make(&mut random, &mut seen, &mut buffer, &call);
        }
    }
    seen.print(test);
    seen.check(Code::CutPart, &[0, 1, 4, 13, 15, 17, 18]);
    seen.check(Code::JoinPart, &[0, 1, 4, 13, 18]);
}
