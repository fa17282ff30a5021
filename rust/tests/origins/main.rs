//! Which entries media types come from: examples and refusals by hand, outputs
//! of each length, and random packages beside their media types.

mod examples;
mod outputs;
mod random;
mod refusals;
#[path = "../support/mod.rs"]
mod support;

use reference::ledger::Ledger;
use support::outputs::GUARD;
use support::{numbers, show};
use zombirels::package::{Package, OVERHEAD};

/// The kind and the key, or the refusal's number and the length that it
/// carries.
type Answer = Result<(u64, Vec<u8>), (u64, u64)>;

/// The archive's answer as it returns it.
#[repr(C)]
#[derive(Debug, PartialEq, Eq)]
struct Reply {
    number: u64,
    count: u64,
    values: [u64; 3],
}

extern "C" {
    fn opc_type_origin(
        package: *const u8,
        package_length: usize,
        name: *const u8,
        name_length: usize,
        out: *mut u8,
        out_length: usize,
    ) -> Reply;
}

/// Asks the archive itself. The bytes on both sides of the output stay.
fn reply(package: &[u8], name: &[u8], out: &mut [u8]) -> Reply {
    let mut bytes = [&[0xA5; GUARD][..], out, &[0x5A; GUARD]].concat();
    let lent = &mut bytes[GUARD..GUARD + out.len()];
    // SAFETY: each pointer and its length come from one slice; the output's is
    // lent for writing.
    let reply = unsafe {
        opc_type_origin(
            package.as_ptr(),
            package.len(),
            name.as_ptr(),
            name.len(),
            lent.as_mut_ptr(),
            lent.len(),
        )
    };
    out.copy_from_slice(lent);
    assert!(bytes.starts_with(&[0xA5; GUARD]) && bytes.ends_with(&[0x5A; GUARD]));
    reply
}

/// What the archive answers with an output of so many bytes. The values are
/// those of the papers, and all bytes but the key's are kept.
fn origin(package: &[u8], name: &[u8], lent: usize) -> Answer {
    let (before, mut out) = (package.to_vec(), vec![b'.'; lent]);
    let reply = reply(package, name, &mut out);
    assert!(package == before, "{} changed the package", show(name));
    assert_eq!(reply.count, 2, "{}", show(name));
    let (answer, written) = match (reply.number, reply.values) {
        (0, [kind, length, 0]) if kind <= 2 && length <= lent as u64 => {
            let key = out[..length as usize].to_vec();
            assert!(kind > 0 || key.is_empty(), "{}", show(&key));
            (Ok((kind, key)), length as usize)
        }
        (3, [needed, 0, 0]) => (Err((3, needed)), 0),
        (number, [0, 0, 0]) if number > 0 => (Err((number, 0)), 0),
        _ => panic!("{}: {reply:?}", show(name)),
    };
    let kept = out[written..].iter().all(|&byte| byte == b'.');
    assert!(kept, "{}: {}", show(name), show(&out));
    compare_wrapper(package, name, lent, &answer);
    answer
}

/// The wrapper tells the same.
fn compare_wrapper(package: &[u8], name: &[u8], lent: usize, answer: &Answer) {
    let mut out = vec![b'.'; lent];
    let origin = Package::open(package).type_origin(name, &mut out);
    let told = origin.map(|origin| {
        let key = origin.key().unwrap_or_default();
        (origin.number(), key.to_vec())
    });
    let told = told.map_err(numbers);
    assert_eq!(
        told.map_err(|(number, needed)| (number, needed as u64)),
        *answer
    );
}

/// A package beside the ledger of what it must hold.
struct Pair<'a> {
    package: &'a mut Package,
    ledger: Ledger,
}

/// A buffer for a package of that capacity, without a byte to spare.
fn buffer(capacity: usize) -> Box<[u8]> {
    vec![0xA5; capacity + OVERHEAD].into_boxed_slice()
}

impl<'a> Pair<'a> {
    fn start(buffer: &'a mut [u8]) -> Pair<'a> {
        let (length, capacity) = (buffer.len(), buffer.len() - OVERHEAD);
        let mut ledger = Ledger::default();
        let started = ledger.start(length as u64, capacity as u64);
        started.expect("room");
        let package = Package::start(buffer, capacity as u64).expect("room");
        Pair { package, ledger }
    }

    /// A package with these parts, Defaults and Overrides.
    fn with(
        buffer: &'a mut [u8],
        items: &[&str],
        defaults: &[&str],
        overrides: &[&str],
    ) -> Pair<'a> {
        let mut pair = Pair::start(buffer);
        for name in items {
            pair.put(name.as_bytes());
        }
        for extension in defaults {
            pair.put_default(extension.as_bytes(), b"d/d");
        }
        for name in overrides {
            pair.put_override(name.as_bytes(), b"o/o");
        }
        pair
    }

    fn put(&mut self, name: &[u8]) {
        self.package.put_item(name, b"tile").expect("room");
        self.ledger.put_item(name, b"tile").expect("room");
    }

    fn put_default(&mut self, extension: &[u8], media_type: &[u8]) {
        let put = self.package.put_default(extension, media_type);
        put.expect("room");
        let put = self.ledger.put_default(extension, media_type);
        put.expect("room");
    }

    fn put_override(&mut self, name: &[u8], media_type: &[u8]) {
        let put = self.package.put_override(name, media_type);
        put.expect("room");
        let put = self.ledger.put_override(name, media_type);
        put.expect("room");
    }

    fn drop_default(&mut self, extension: &[u8]) {
        self.package.drop_default(extension).expect("held");
        self.ledger.drop_default(extension).expect("held");
    }

    fn drop_override(&mut self, name: &[u8]) {
        self.package.drop_override(name).expect("held");
        self.ledger.drop_override(name).expect("held");
    }

    /// What both sides answer with an output of so many bytes.
    fn origin(&self, name: &[u8], lent: usize) -> Answer {
        let answer = origin(self.package.as_bytes(), name, lent);
        let mut out = vec![b'.'; lent];
        let right = self.ledger.type_origin(name, &mut out);
        let right = right.map(|origin| (origin.kind, out[..origin.length].to_vec()));
        let right = right.map_err(|refusal| (refusal.number(), refusal.value() as u64));
        assert_eq!(answer, right, "{}", show(name));
        answer
    }

    /// The kind and the key of a part, as text.
    fn found(&self, name: &str) -> (u64, String) {
        let (kind, key) = self.origin(name.as_bytes(), 255).expect("a part");
        (kind, String::from_utf8_lossy(&key).into_owned())
    }
}
