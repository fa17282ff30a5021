//! Streams beside what document 02 says of them.

use crate::Pair;
use reference::examples::streams::{clauses, KINDS};

/// Every row of the table in each kind. An accepted stream has one entry again
/// and again, and is refused by 10 where it has more than one.
#[test]
fn every_clause() {
    let mut rows = 0;
    let mut pair = Pair::start(100);
    for clause in clauses() {
        let accepted = clause.accepted.iter().map(|&(count, row)| match count {
            0 | 1 => (row, 0),
            _ => (row, 10),
        });
        let malformed = clause.malformed.iter().map(|&row| (row, 19));
        let deep = clause.deep.iter().map(|&row| (row, 20));
        for (row, expected) in accepted.chain(malformed).chain(deep) {
            for kind in &KINDS {
                pair.restart(100);
                let answer = pair.read(kind, &kind.stream(row));
                let shown = row.escape_ascii();
                assert_eq!(answer, expected, "{}: {shown} {kind:?}", clause.says);
            }
            rows += 1;
        }
    }
    println!("{rows} streams read in {} kinds", KINDS.len());
    assert!(rows > 500);
}
