//! Parts cut into pieces and joined again: examples and refusals by hand, what
//! stays alike, and packages at their limits.

mod alike;
mod examples;
mod full;
mod limits;
mod refusals;
#[path = "../support/mod.rs"]
mod support;

use reference::ledger::Ledger;
use support::{numbers, show};
use zombirels::package::{Package, OVERHEAD};

/// The quotient and the remainder, or the number of the refusal.
type Answer = Result<(usize, usize), u64>;

/// A package in a buffer of just the right length, beside the ledger of what
/// it must hold. Each change is made on both sides and compared.
struct Pair<'a> {
    package: &'a mut Package,
    ledger: Ledger,
}

/// A buffer for a package of that capacity, without a byte to spare.
fn buffer(capacity: usize) -> Box<[u8]> {
    vec![0xA5; capacity + OVERHEAD].into_boxed_slice()
}

impl<'a> Pair<'a> {
    fn start(buffer: &'a mut [u8]) -> Pair<'a> {
        let (length, capacity) = (buffer.len(), buffer.len() - OVERHEAD);
        let mut ledger = Ledger::default();
        let started = ledger.start(length as u64, capacity as u64);
        started.expect("room");
        let package = Package::start(buffer, capacity as u64).expect("room");
        Pair { package, ledger }
    }

    fn put(&mut self, name: &[u8], bytes: &[u8]) {
        self.package.put_item(name, bytes).expect("room");
        self.ledger.put_item(name, bytes).expect("room");
    }

    fn drop(&mut self, name: &[u8]) {
        self.package.drop_item(name).expect("held");
        self.ledger.drop_item(name).expect("held");
    }

    /// Cuts a part. A refusal leaves every byte.
    fn cut(&mut self, name: &[u8], count: u64) -> Answer {
        let before = self.package.as_bytes().to_vec();
        let cut = self.package.cut_part(name, count);
        let right = self.ledger.cut_part(name, count);
        let answer = cut.map(|cut| (cut.size, cut.longer));
        let right = right.map(|cut| (cut.size as usize, cut.longer as usize));
        self.compare(name, answer.map_err(numbers), right, &before)
    }

    /// Joins the pieces of a part. A refusal leaves every byte.
    fn join(&mut self, name: &[u8]) -> Answer {
        let before = self.package.as_bytes().to_vec();
        let answer = self.package.join_part(name).map(|()| (0, 0));
        let right = self.ledger.join_part(name).map(|()| (0, 0));
        self.compare(name, answer.map_err(numbers), right, &before)
    }

    fn compare(
        &self,
        name: &[u8],
        answer: Result<(usize, usize), (u64, usize)>,
        right: Result<(usize, usize), reference::Refusal>,
        before: &[u8],
    ) -> Answer {
        let right = right.map_err(|refusal| (refusal.number(), refusal.value()));
        assert_eq!(answer, right, "{}", show(name));
        let kept = self.package.as_bytes() == before;
        assert!(answer.is_ok() || kept, "{} changed", show(name));
        answer.map_err(|(number, _)| number)
    }

    /// Compares the totals, the bytes of every item, and the name and content
    /// of every part at its position.
    fn check(&self) {
        let (totals, right) = (self.package.totals(), self.ledger.totals());
        let totals = totals.expect("a package");
        let sums = [totals.items, totals.parts, totals.charge];
        let right = [right.items, right.parts, right.charge];
        assert_eq!(sums.map(|sum| sum as u64), right);
        for (name, bytes) in self.ledger.items() {
            let name = name.to_ascii_uppercase();
            assert_eq!(self.package.find_item(&name), Ok(bytes.len()));
            let alike = self.package.view_item(&name) == Some(bytes);
            assert!(alike, "{} is viewed as other bytes", show(&name));
        }
        for (position, part) in self.ledger.parts().enumerate() {
            let mut out = vec![7; part.bytes.max(255) + 1];
            let length = self.package.part_at(position as u64, &mut out);
            let name = &out[..length.expect("a part")];
            assert_eq!(show(name), show(part.name));
            let read = self.package.read_part(part.name, 0, &mut out);
            assert_eq!(read, Ok(part.bytes));
            let mut content = vec![7; part.bytes];
            let right = self.ledger.read_part(part.name, 0, &mut content);
            assert_eq!(right, Ok(part.bytes));
            assert!(out[..part.bytes] == content, "{} is read", show(part.name));
        }
    }

    fn charge(&self) -> usize {
        self.package.totals().expect("a package").charge
    }
}
