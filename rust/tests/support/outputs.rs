//! Outputs that both sides write to.

use super::{show, Random};

/// What stands on both sides of lent bytes and must stay.
pub const GUARD: usize = 32;

/// Two outputs that hold the same, for the archive and for the reference.
pub struct Outputs {
    before: Vec<u8>,
    archive: Vec<u8>,
    reference: Vec<u8>,
}

impl Outputs {
    pub fn new(random: &mut Random, length: usize) -> Outputs {
        let start = random.byte();
        let before: Vec<u8> = (0..length + 2 * GUARD)
            .map(|i| start.wrapping_add(i as u8))
            .collect();
        Outputs {
            archive: before.clone(),
            reference: before.clone(),
            before,
        }
    }

    pub fn archive(&mut self) -> &mut [u8] {
        inside(&mut self.archive)
    }

    pub fn reference(&mut self) -> &mut [u8] {
        inside(&mut self.reference)
    }

    /// Both sides hold the same. Behind the first `written` bytes, and on both
    /// sides of what was lent, they hold what they held before.
    pub fn check(&self, written: usize, call: impl Fn() -> String) {
        assert!(
            self.archive == self.reference,
            "{}: {} for {}",
            call(),
            show(&self.archive),
            show(&self.reference)
        );
        let behind = GUARD + written.min(self.before.len() - 2 * GUARD);
        assert!(
            self.archive[..GUARD] == self.before[..GUARD],
            "{}: bytes before the output changed",
            call()
        );
        assert!(
            self.archive[behind..] == self.before[behind..],
            "{}: bytes behind what was written changed",
            call()
        );
    }
}

fn inside(bytes: &mut [u8]) -> &mut [u8] {
    let end = bytes.len() - GUARD;
    &mut bytes[GUARD..end]
}
