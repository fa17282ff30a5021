//! Names in either letter case, and names that begin alike: every search of a
//! package beside the ledger of what it must hold.

mod beginnings;
mod bytes;
mod ids;
mod lengths;
mod pieces;
mod refusals;
mod set;
mod sets;
#[path = "../support/mod.rs"]
mod support;

use reference::ledger::Ledger;
use support::calls::{Answer, Call};
use support::show;
use zombirels::package::{Package, OVERHEAD};
use zombirels::script::Code;

/// A package beside its ledger. Each call is made on both sides and compared.
struct Pair<'a> {
    package: &'a mut Package,
    ledger: Ledger,
}

/// A buffer for a package of that capacity, without a byte to spare.
fn buffer(capacity: usize) -> Box<[u8]> {
    vec![0xA5; capacity + OVERHEAD].into_boxed_slice()
}

impl<'a> Pair<'a> {
    fn start(buffer: &'a mut [u8]) -> Pair<'a> {
        let (length, capacity) = (buffer.len(), buffer.len() - OVERHEAD);
        let mut ledger = Ledger::default();
        let started = ledger.start(length as u64, capacity as u64);
        started.expect("room");
        let package = Package::start(buffer, capacity as u64).expect("room");
        Pair { package, ledger }
    }

    /// Makes a call on both sides: their answers and outputs are alike, and a
    /// refusal leaves every byte.
    fn make(&mut self, call: &Call) -> Answer {
        let length = self.package.as_bytes().len() as u64;
        let kept = call.changes().then(|| self.package.as_bytes().to_vec());
        let mut outs = [(); 2].map(|()| vec![b'.'; call.lent]);
        let answer = call.by_archive(self.package, &mut outs[0]);
        let right = call.by_reference(&mut self.ledger, length, &mut outs[1]);
        assert!(answer == right, "{}: {answer:?} for {right:?}", call.show());
        let [out, other] = outs;
        assert!(
            out == other,
            "{}: {} for {}",
            call.show(),
            show(&out),
            show(&other)
        );
        if let (Some(kept), Err(_)) = (kept, answer) {
            assert!(self.package.as_bytes() == kept, "{} changed", call.show());
        }
        answer
    }

    /// The number of the refusal; 0 if the call is accepted.
    fn number(&mut self, call: &Call) -> u64 {
        self.make(call).err().map_or(0, |(number, _)| number)
    }

    /// Makes a call that must be answered by that number.
    fn expect(&mut self, call: &Call, number: u64) {
        assert_eq!(self.number(call), number, "{}", call.show());
    }

    /// The name of the part at each position, and its content, on both sides.
    fn check_parts(&mut self) {
        let [_, parts, _] = self.make(&Call::new(Code::Totals, &[])).expect("a package");
        for position in 0..=parts {
            let mut name = [0; 255];
            let at = Call::new(Code::PartAt, &[]).with_number(position as u64);
            let Ok([length, ..]) = self.make(&at.with_output(255)) else {
                assert_eq!(position, parts);
                return;
            };
            let named = self.package.part_at(position as u64, &mut name);
            assert_eq!(named, Ok(length));
            for name in spellings(&name[..length]) {
                let read = Call::new(Code::ReadPart, &[&name]).with_output(600);
                self.expect(&read, 0);
            }
        }
        panic!("more parts than the totals tell");
    }
}

/// A put of an item that holds the spelling of its name.
fn put(name: &[u8]) -> Call {
    Call::new(Code::PutItem, &[name, name])
}

fn drop(name: &[u8]) -> Call {
    Call::new(Code::DropItem, &[name])
}

fn find(name: &[u8]) -> Call {
    Call::new(Code::FindItem, &[name])
}

fn view(name: &[u8]) -> Call {
    Call::new(Code::ViewItem, &[name]).with_output(300)
}

/// The same letters with the case of each changed.
fn turned(text: &[u8]) -> Vec<u8> {
    let turn = |&byte: &u8| match byte {
        b'A'..=b'Z' | b'a'..=b'z' => byte ^ 0x20,
        _ => byte,
    };
    text.iter().map(turn).collect()
}

/// A text as it is, with the case of each letter changed, in small letters and
/// in capitals.
fn spellings(text: &[u8]) -> [Vec<u8>; 4] {
    [
        text.to_vec(),
        turned(text),
        text.to_ascii_lowercase(),
        text.to_ascii_uppercase(),
    ]
}
