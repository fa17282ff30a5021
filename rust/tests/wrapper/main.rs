//! What the wrapper adds to the archive's calls: iterators, readers, calls that
//! allocate, packages that own their bytes, conversions, lengths that suffice.

mod held;
mod iterators;
mod lengths;
mod odd_bytes;
mod owned;
mod readers;
#[path = "../support/mod.rs"]
mod support;
mod twins;
mod words;

use std::iter::FusedIterator;

/// All that an iterator yields: as many as it says at each step, again from a
/// clone, and nothing behind the end.
fn exact<I: ExactSizeIterator + FusedIterator + Clone>(mut iterator: I) -> Vec<I::Item> {
    let (said, clone) = (iterator.len(), iterator.clone());
    let mut yielded = Vec::new();
    while let Some(item) = iterator.next() {
        yielded.push(item);
        assert_eq!(iterator.len(), said - yielded.len());
    }
    assert_eq!(yielded.len(), said);
    assert!(iterator.next().is_none());
    assert_eq!(clone.count(), said);
    yielded
}
