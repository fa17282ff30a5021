//! Runs on both sides.

use crate::random::{LONG, SOURCES};
use crate::support::outputs::GUARD;
use crate::support::{numbers, show};
use reference::ledger::Ledger;
use zombirels::package::{Package, OVERHEAD};

/// Bytes with a guard on both sides.
pub struct Guarded(Vec<u8>);

impl Guarded {
    pub fn new(bytes: &[u8]) -> Guarded {
        Guarded([&[0xA5; GUARD][..], bytes, &[0x5A; GUARD]].concat())
    }

    pub fn bytes(&mut self) -> &mut [u8] {
        let end = self.0.len() - GUARD;
        &mut self.0[GUARD..end]
    }

    pub fn check(&self) {
        let kept = self.0.starts_with(&[0xA5; GUARD]) && self.0.ends_with(&[0x5A; GUARD]);
        assert!(kept, "bytes beside the lent ones changed");
    }
}

/// What a run told, as numbers.
pub type Told = (usize, usize, usize);

/// A package and the ledger of what it holds.
pub struct Pair {
    pub package: Guarded,
    ledger: Ledger,
}

impl Pair {
    /// A package of this capacity, in a buffer with `spare` bytes more than it
    /// must have.
    pub fn new(capacity: usize, spare: usize) -> Pair {
        let length = capacity + OVERHEAD + spare;
        let mut package = Guarded::new(&vec![0; length]);
        Package::start(package.bytes(), capacity as u64).expect("room");
        let mut ledger = Ledger::default();
        ledger.start(length as u64, capacity as u64).expect("room");
        Pair { package, ledger }
    }

    pub fn length(&self) -> u64 {
        (self.package.0.len() - 2 * GUARD) as u64
    }

    /// Runs a script on both sides with an output that holds `before`, and
    /// compares. Answers what the output then holds and what was told.
    pub fn run(&mut self, script: &[u8], before: &[u8]) -> (Vec<u8>, Told) {
        let length = self.length();
        let (mut out, mut expected) = (Guarded::new(before), before.to_vec());
        let package = Package::open_mut(self.package.bytes());
        let run = package.run_bytes(script, out.bytes());
        let told = (run.written(), run.read(), run.calls());
        let complete = run.is_complete();
        let answers = run.answers().count();
        let right = reference::script::run(&mut self.ledger, length, script, &mut expected);
        assert_eq!(told, right, "{}", show(script));
        assert!(out.bytes() == expected, "the output of {}", show(script));
        assert!(expected[told.0..] == before[told.0..]);
        assert_eq!(complete, told.1 == script.len());
        assert!(answers == told.2 || answers == told.2 + 1);
        out.check();
        self.package.check();
        (expected, told)
    }

    /// Compares the totals and the streams, through the calls by themselves.
    pub fn compare(&mut self) {
        let Pair { package, ledger } = self;
        let package = Package::open_mut(package.bytes());
        let (totals, right) = (package.totals().expect("a package"), ledger.totals());
        let right = [right.items, right.parts, right.charge].map(|value| value as usize);
        assert_eq!([totals.items, totals.parts, totals.charge], right);
        let (mut out, mut expected) = (vec![7; LONG], vec![7; LONG]);
        let length = package.write_types(&mut out).expect("room");
        assert_eq!(ledger.write_types(&mut expected), Ok(length));
        assert!(out == expected, "{}", show(&out[..length]));
        for source in SOURCES {
            let answer = package.write_relationships(source, &mut out);
            let right = ledger.write_relationships(source, &mut expected);
            let right = right.map_err(|refusal| (refusal.number(), refusal.value()));
            assert_eq!(answer.map_err(numbers), right);
            assert!(out == expected);
        }
    }
}
