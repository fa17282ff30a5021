//! Random streams, read as they were made.

use super::{read, Random};
use reference::examples::streams::{DECLARATION, DEFAULT, RELATIONSHIP};
use reference::random_streams::{relationships, types, Made};
use reference::streams::{read_relationships, read_types};
use std::fmt::Debug;

const STREAMS: usize = 20_000;

/// Compares what was read with what was made; whether it was accepted.
fn compare<E: PartialEq + Debug>(made: &Made<E>, answer: Result<Vec<E>, u8>) -> bool {
    let shown = made.bytes.escape_ascii();
    match (answer, made.deep) {
        (Ok(entries), None) => {
            assert_eq!(entries, made.entries, "{shown}");
            true
        }
        (Err(20), Some(_)) => false,
        (answer, _) => panic!("{answer:?}: {shown}"),
    }
}

/// Many streams are accepted, and many too deep.
fn require(accepted: usize) {
    println!("{STREAMS} streams read as made, {accepted} accepted");
    assert!(accepted * 2 > STREAMS && (STREAMS - accepted) * 20 > STREAMS);
}

#[test]
fn types_as_made() {
    let mut random = Random(5_001);
    let mut accepted = 0;
    for _ in 0..STREAMS {
        let made = types(&mut |end| random.below(end));
        accepted += usize::from(compare(&made, read_types(&made.bytes)));
    }
    require(accepted);
}

#[test]
fn relationships_as_made() {
    let mut random = Random(5_002);
    let mut accepted = 0;
    for _ in 0..STREAMS {
        let made = relationships(&mut |end| random.below(end));
        accepted += usize::from(compare(&made, read_relationships(&made.bytes)));
    }
    require(accepted);
}

/// What stands around the root has no part in the answer; nor has the
/// declaration.
#[test]
fn around_the_root() {
    let mut random = Random(5_003);
    for _ in 0..STREAMS / 10 {
        let made = types(&mut |end| random.below(end));
        let answer = read(&DEFAULT, &made.bytes);
        let bare = made.bytes.strip_prefix(DECLARATION.as_bytes());
        let bare = bare.unwrap_or(&made.bytes);
        for before in ["", DECLARATION, " ", "<!-- - -->", "\r\n<!---->\t"] {
            for after in ["", "\n", "<!-->-->", " <!--a--> \r\n"] {
                let stream = [before.as_bytes(), bare, after.as_bytes()].concat();
                assert_eq!(read(&DEFAULT, &stream), answer);
            }
        }
        let other = read(&RELATIONSHIP, &made.bytes);
        assert_eq!(other, Err(19), "a stream of another kind");
    }
}
