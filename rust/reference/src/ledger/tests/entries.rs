//! Entries by their positions.

use super::*;

/// One field of all entries of a set, as text.
fn column(held: &Ledger, set: u64, field: u64) -> Vec<String> {
    let entries = held.entries(set).unwrap();
    let count = entries.count();
    let text = |position| {
        let (bytes, told) = held.entry_at(set, position, field).unwrap();
        assert_eq!(told, count);
        assert_eq!(entries.at(position, field), Ok(&bytes[..]));
        String::from_utf8(bytes).unwrap()
    };
    (0..count as u64).map(text).collect()
}

fn refused(held: &Ledger, set: u64, position: u64, field: u64) -> u64 {
    number(held.entry_at(set, position, field))
}

/// Items of these names, each with the number of its put as content.
fn items(names: &[&str]) -> Ledger {
    let mut held = ledger(10_000);
    for (i, name) in names.iter().enumerate() {
        let put = held.put_item(name.as_bytes(), i.to_string().as_bytes());
        assert_eq!(put, Ok(()), "{name}");
    }
    held
}

/// Foldings are compared: `_` stands between the cases of letters.
#[test]
fn items_in_mixed_case() {
    let held = items(&["/b", "/C", "/A", "/_", "/é", "/d/E", "/D/f"]);
    let names = ["/_", "/A", "/b", "/C", "/d/E", "/D/f", "/é"];
    assert_eq!(column(&held, 0, 0), names);
    assert_eq!(column(&held, 0, 1), ["3", "2", "0", "1", "5", "6", "4"]);
}

#[test]
fn pieces_by_number() {
    let held = items(&[
        "/t/[10].piece",
        "/T/[9].PIECE",
        "/t/[100].last.piece",
        "/t/[2].piece",
        "/T/[0].piece",
    ]);
    let names = [
        "/T/[0].piece",
        "/t/[2].piece",
        "/T/[9].PIECE",
        "/t/[10].piece",
        "/t/[100].last.piece",
    ];
    assert_eq!(column(&held, 0, 0), names);
    assert_eq!(column(&held, 0, 1), ["4", "3", "1", "0", "2"]);
}

/// The prefix counts, not the whole name: `-` comes before `/`, and `/a` before
/// both; a digit comes before `[`.
#[test]
fn whole_items_beside_pieces() {
    let held = items(&[
        "/a-",
        "/A/[1].piece",
        "/a/[0].piece",
        "/ab",
        "/B/[7].last.piece",
        "/b-/0",
        "/b0/[0].last.piece",
    ]);
    let names = [
        "/a/[0].piece",
        "/A/[1].piece",
        "/a-",
        "/ab",
        "/B/[7].last.piece",
        "/b-/0",
        "/b0/[0].last.piece",
    ];
    assert_eq!(column(&held, 0, 0), names);
}

#[test]
fn types_in_folded_order() {
    let mut held = ledger(10_000);
    for (extension, media_type) in [("Xml", "a/1"), ("b", "a/2"), ("_", "a/3"), ("BA", "a/4")] {
        let put = held.put_default(extension.as_bytes(), media_type.as_bytes());
        assert_eq!(put, Ok(()));
    }
    for (name, media_type) in [("/b/c", "b/1"), ("/B-", "b/2"), ("/a", "b/3;q=1")] {
        let put = held.put_override(name.as_bytes(), media_type.as_bytes());
        assert_eq!(put, Ok(()));
    }
    assert_eq!(column(&held, 1, 0), ["_", "b", "BA", "Xml"]);
    assert_eq!(column(&held, 1, 1), ["a/3", "a/2", "a/4", "a/1"]);
    assert_eq!(column(&held, 2, 0), ["/a", "/B-", "/b/c"]);
    assert_eq!(column(&held, 2, 1), ["b/3;q=1", "b/2", "b/1"]);
    assert_eq!(column(&held, 0, 0), [""; 0]);
}

/// The source `/` comes first; sources are folded, ids are not.
#[test]
fn relationships_by_source_and_id() {
    let mut held = ledger(10_000);
    for (source, id, mode, target) in [
        ("/B", "a", 0, "t1"),
        ("/a", "r10", 1, "t2"),
        ("/b", "B", 0, "t3"),
        ("/A", "r9", 0, "t4"),
        ("/", "z", 1, "t5"),
        ("/b", "A", 1, "t6"),
        ("/", "Z", 0, "t7"),
        ("/a", "R9", 0, "t8"),
    ] {
        let kind = format!("k:{target}").into_bytes();
        let [source, id, target] = [source, id, target].map(str::as_bytes);
        let put = held.put_relationship(source, id, &kind, mode, target);
        assert_eq!(put, Ok(()));
    }
    let sources = ["/", "/", "/a", "/a", "/A", "/b", "/b", "/B"];
    assert_eq!(column(&held, 3, 0), sources);
    let ids = ["Z", "z", "R9", "r10", "r9", "A", "B", "a"];
    assert_eq!(column(&held, 3, 1), ids);
    let targets = ["t7", "t5", "t8", "t2", "t4", "t6", "t3", "t1"];
    assert_eq!(column(&held, 3, 4), targets);
    assert_eq!(
        column(&held, 3, 2),
        targets.map(|target| format!("k:{target}"))
    );
    let modes = ["\0", "\x01", "\0", "\x01", "\0", "\x01", "\0", "\0"];
    assert_eq!(column(&held, 3, 3), modes);
}

#[test]
fn entry_refusals() {
    let held = items(&["/a", "/b"]);
    for set in [4, 5, 1 << 32, u64::MAX] {
        assert_eq!(refused(&held, set, 0, 0), 8);
        assert_eq!(refused(&held, set, u64::MAX, u64::MAX), 8);
    }
    for (set, width) in [(0, 2), (1, 2), (2, 2), (3, 5)] {
        assert_eq!(held.entries(set).map(|set| set.width()), Ok(width as usize));
        for field in [width, width + 1, 1 << 32, u64::MAX] {
            assert_eq!(refused(&held, set, 0, field), 8);
            assert_eq!(refused(&held, set, 7, field), 8);
        }
    }
    for position in [2, 3, 1 << 32, (1 << 32) + 1, u64::MAX] {
        assert_eq!(refused(&held, 0, position, 1), 13);
    }
    assert_eq!([1, 2, 3].map(|set| refused(&held, set, 0, 0)), [13; 3]);
    assert_eq!(refused(&held, 3, 0, 4), 13);
}

/// Names are told as they were put, or as a cut or a join made them.
#[test]
fn entries_after_changes() {
    let mut held = items(&["/T", "/Z", "/a"]);
    held.drop_item(b"/z").unwrap();
    assert_eq!(column(&held, 0, 0), ["/a", "/T"]);
    held.put_item(b"/z", b"").unwrap();
    held.cut_part(b"/t", 2).unwrap();
    let names = ["/a", "/T/[0].piece", "/T/[1].last.piece", "/z"];
    assert_eq!(column(&held, 0, 0), names);
    assert_eq!(column(&held, 0, 1), ["2", "0", "", ""]);
    held.join_part(b"/t").unwrap();
    assert_eq!(column(&held, 0, 0), ["/a", "/T", "/z"]);
    held.start(LENGTH, 10).unwrap();
    assert_eq!(refused(&held, 0, 0, 0), 13);
}
