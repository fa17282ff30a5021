//! Streams beside what document 02 says of them.

use super::read;
use reference::examples::streams::{clauses, KINDS};

#[test]
fn every_clause() {
    let mut rows = 0;
    for clause in clauses() {
        let accepted = clause.accepted.iter().map(|&(count, row)| (row, Ok(count)));
        let malformed = clause.malformed.iter().map(|&row| (row, Err(19)));
        let deep = clause.deep.iter().map(|&row| (row, Err(20)));
        for (row, expected) in accepted.chain(malformed).chain(deep) {
            for kind in &KINDS {
                let answer = read(kind, &kind.stream(row));
                let shown = row.escape_ascii();
                assert_eq!(answer, expected, "{}: {shown} {kind:?}", clause.says);
            }
            rows += 1;
        }
    }
    println!("{rows} streams read in {} kinds", KINDS.len());
}
