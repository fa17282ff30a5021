//! Entries asked for by their positions: the questions, and what is to be
//! answered.

use super::outputs::GUARD;
use super::{numbers, show, Random};
use reference::ledger::Entries;
use zombirels::package::Package;

/// A field of the entry at a position of a set, asked for with an output of so
/// many bytes.
#[derive(Clone, Copy, Debug)]
pub struct Ask {
    pub set: u64,
    pub position: u64,
    pub field: u64,
    pub lent: usize,
}

/// The field's length and how many entries the set has, or the number of the
/// refusal and the length that it carries.
pub type Told = Result<[usize; 2], (u64, usize)>;

/// The archive's answer as its function returns it.
#[repr(C)]
#[derive(Debug, PartialEq, Eq)]
pub struct Reply {
    pub number: u64,
    pub count: u64,
    pub values: [u64; 3],
}

extern "C" {
    fn opc_entry_at(
        package: *const u8,
        package_length: usize,
        set: u64,
        position: u64,
        field: u64,
        out: *mut u8,
        out_length: usize,
    ) -> Reply;
}

impl Ask {
    /// Asks the archive itself, of any bytes.
    pub fn reply(self, package: &[u8], out: &mut [u8]) -> Reply {
        assert_eq!(out.len(), self.lent);
        // SAFETY: each pointer and its length come from one slice; the
        // output's is lent for writing.
        unsafe {
            opc_entry_at(
                package.as_ptr(),
                package.len(),
                self.set,
                self.position,
                self.field,
                out.as_mut_ptr(),
                out.len(),
            )
        }
    }

    /// Asks through the wrapper.
    pub fn by_wrapper(self, package: &Package, out: &mut [u8]) -> Told {
        assert_eq!(out.len(), self.lent);
        let told = package.entry_at(self.set, self.position, self.field, out);
        let told = told.map(|field| [field.length, field.entries]);
        told.map_err(numbers)
    }

    /// What is to be answered, and the bytes that are then written, by the
    /// entries of the set; none if there is no such set.
    pub fn right<'a>(self, entries: Option<&Entries<'a>>) -> (Told, &'a [u8]) {
        let Some(entries) = entries else {
            return (Err((8, 0)), b"");
        };
        match entries.at(self.position, self.field) {
            Err(refusal) => (Err((refusal.number(), 0)), b""),
            Ok(bytes) if bytes.len() > self.lent => (Err((3, bytes.len())), b""),
            Ok(bytes) => (Ok([bytes.len(), entries.count()]), bytes),
        }
    }
}

/// Reads a reply: two values, of which a refusal names the length needed alone.
pub fn told(reply: &Reply) -> Told {
    assert_eq!(reply.count, 2, "{reply:?}");
    match (reply.number, reply.values) {
        (0, [length, entries, 0]) => Ok([length as usize, entries as usize]),
        (3, [needed, 0, 0]) => Err((3, needed as usize)),
        (number, [0, 0, 0]) if number > 0 => Err((number, 0)),
        _ => panic!("unnamed values: {reply:?}"),
    }
}

/// An output that is lent again and again, in any length. It holds bytes that
/// count up.
pub struct Slate {
    before: Vec<u8>,
    bytes: Vec<u8>,
}

impl Slate {
    pub fn new(random: &mut Random) -> Slate {
        let before = vec![random.byte()];
        Slate {
            bytes: before.clone(),
            before,
        }
    }

    /// Lends so many bytes.
    pub fn lend(&mut self, length: usize) -> &mut [u8] {
        let (held, start) = (self.before.len(), self.before[0]);
        if held < length + 2 * GUARD {
            let more = (held..length + 2 * GUARD).map(|i| start.wrapping_add(i as u8));
            self.before.extend(more);
            self.bytes.extend_from_slice(&self.before[held..]);
        }
        &mut self.bytes[GUARD..][..length]
    }

    /// Checks that just these bytes were written at the start of what was lent,
    /// and puts back what stood there.
    pub fn check(&mut self, lent: usize, written: &[u8], ask: impl Fn() -> String) {
        let (from, to) = (GUARD + written.len(), 2 * GUARD + lent);
        let (out, behind) = (&self.bytes[GUARD..from], &self.bytes[from..to]);
        assert!(out == written, "{}: {}", ask(), show(out));
        let kept = behind == &self.before[from..to];
        assert!(kept, "{}: bytes behind what was written changed", ask());
        let kept = self.bytes[..GUARD] == self.before[..GUARD];
        assert!(kept, "{}: bytes before the output changed", ask());
        self.bytes[GUARD..from].copy_from_slice(&self.before[GUARD..from]);
    }
}
