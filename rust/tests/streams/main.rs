//! Streams read: the archive beside the ledger of the reference. Compared are
//! the answer and what is held after; where a call is refused, every byte of
//! the package is what it was.

mod back;
mod clauses;
mod depth;
mod full;
mod kept;
mod odd;
mod random;
mod refusals;
mod samples;
#[path = "../support/mod.rs"]
mod support;

use reference::examples::streams::{Kind, DEFAULT, RELATIONSHIP};
use reference::ledger::Ledger;
use reference::Refusal;
use support::show;
use zombirels::package::{buffer_len, Package, PackageBuf};

/// The archive's answer as its functions return it.
#[repr(C)]
#[derive(Debug, PartialEq, Eq)]
struct Reply {
    number: u64,
    count: u64,
    values: [u64; 3],
}

extern "C" {
    fn opc_read_types(
        package: *mut u8,
        package_length: usize,
        stream: *const u8,
        stream_length: usize,
    ) -> Reply;
    fn opc_read_relationships(
        package: *mut u8,
        package_length: usize,
        source: *const u8,
        source_length: usize,
        stream: *const u8,
        stream_length: usize,
    ) -> Reply;
}

/// Has the archive read a types stream, or the Relationships part of a source:
/// the number. A refusal leaves every byte as it was.
fn read(package: &mut [u8], source: Option<&[u8]>, stream: &[u8]) -> u64 {
    let before = package.to_vec();
    let (bytes, length) = (package.as_mut_ptr(), package.len());
    // SAFETY: each pointer and its length come from one slice; the package's
    // is lent for writing.
    let reply = unsafe {
        match source {
            None => opc_read_types(bytes, length, stream.as_ptr(), stream.len()),
            Some(source) => opc_read_relationships(
                bytes,
                length,
                source.as_ptr(),
                source.len(),
                stream.as_ptr(),
                stream.len(),
            ),
        }
    };
    assert_eq!((reply.count, reply.values), (1, [0; 3]), "{}", show(stream));
    let kept = reply.number == 0 || *package == before;
    assert!(kept, "refusal {} changed: {}", reply.number, show(stream));
    reply.number
}

fn number<T>(answer: Result<T, Refusal>) -> u64 {
    answer.map_or_else(Refusal::number, |_| 0)
}

/// A package and the ledger of what it holds.
struct Pair {
    package: PackageBuf,
    ledger: Ledger,
}

impl Pair {
    fn start(capacity: u64) -> Pair {
        let mut pair = Pair {
            package: PackageBuf::start(capacity).expect("a capacity"),
            ledger: Ledger::default(),
        };
        pair.restart(capacity);
        pair
    }

    /// Empties both; the capacity is no greater than the first one.
    fn restart(&mut self, capacity: u64) {
        self.package.restart(capacity).expect("room");
        let length = buffer_len(capacity) as u64;
        self.ledger.start(length, capacity).expect("room");
    }

    /// Reads a types stream on both sides: the number.
    fn types(&mut self, stream: &[u8]) -> u64 {
        let answer = read(self.package.as_bytes_mut(), None, stream);
        let right = number(self.ledger.read_types(stream));
        assert_eq!(answer, right, "{}", show(stream));
        if answer == 0 {
            self.compare(b"/");
        }
        answer
    }

    /// Reads the Relationships part of a source on both sides: the number.
    fn links(&mut self, source: &[u8], stream: &[u8]) -> u64 {
        let answer = read(self.package.as_bytes_mut(), Some(source), stream);
        let right = number(self.ledger.read_relationships(source, stream));
        assert_eq!(answer, right, "{} {}", show(source), show(stream));
        if answer == 0 {
            self.compare(source);
        }
        answer
    }

    /// Reads a stream of that kind; a Relationships part is that of `/a`.
    fn read(&mut self, kind: &Kind, stream: &[u8]) -> u64 {
        match kind.root == RELATIONSHIP.root {
            true => self.links(b"/a", stream),
            false => self.types(stream),
        }
    }

    /// Reads a stream of that kind with this content, which may have marks.
    fn content(&mut self, kind: &Kind, content: impl AsRef<[u8]>) -> u64 {
        let marked = [b"$<", content.as_ref(), b"$>"].concat();
        self.read(kind, &kind.stream(&marked))
    }

    /// Compares the charge, the types and the relationships of a source.
    fn compare(&self, source: &[u8]) {
        let charge = self.package.totals().expect("a package").charge;
        assert_eq!(charge as u64, self.ledger.totals().charge);
        let types = written(|out| self.ledger.write_types(out));
        assert_eq!(self.package.write_types_to_string().as_deref(), Ok(&*types));
        let links = written(|out| self.ledger.write_relationships(source, out));
        let right = self.package.write_relationships_to_string(source);
        assert_eq!(right.as_deref(), Ok(&*links));
    }
}

/// What the ledger writes.
fn written(write: impl Fn(&mut [u8]) -> Result<usize, Refusal>) -> String {
    let Err(Refusal::OutputTooShort(length)) = write(&mut []) else {
        panic!("a stream isn't empty");
    };
    let mut out = vec![0; length];
    assert_eq!(write(&mut out), Ok(length));
    String::from_utf8(out).expect("a text")
}

/// The wrapper answers the same as the functions that are called here.
#[test]
fn by_the_wrapper() {
    let types = DEFAULT.stream(b"$<$e$>");
    let links = RELATIONSHIP.stream(b"$<$e$>");
    let refused = |answer: Result<(), zombirels::Refusal>| answer.map_err(|r| r.number());
    let mut package = PackageBuf::start(100).expect("a capacity");
    assert_eq!(refused(package.read_types(&types)), Ok(()));
    assert_eq!(refused(package.read_types(&types)), Err(10));
    assert_eq!(refused(package.read_types(&links)), Err(19));
    assert_eq!(refused(package.read_relationships("/", &links)), Ok(()));
    assert_eq!(refused(package.read_relationships("/", &links)), Err(10));
    assert_eq!(refused(package.read_relationships("/x", &links)), Ok(()));
    assert_eq!(refused(package.read_relationships("x", &links)), Err(4));
    let deep = "<p:a>".repeat(16);
    let deep = DEFAULT.stream(format!("$<{deep}").as_bytes());
    assert_eq!(refused(package.read_types(deep)), Err(20));
    let mut none = [0; 100];
    let none = Package::open_mut(&mut none);
    assert_eq!(refused(none.read_types(&types)), Err(1));
    assert_eq!(refused(none.read_relationships("", &links)), Err(1));
}
