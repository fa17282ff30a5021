//! Parts cut into pieces and joined.

use super::*;

/// All items, as texts.
fn items(ledger: &Ledger) -> Vec<(String, String)> {
    let text = |bytes: &[u8]| String::from_utf8(bytes.to_vec()).unwrap();
    let items = ledger.items();
    items
        .map(|(name, bytes)| (text(name), text(bytes)))
        .collect()
}

fn held(capacity: u64, entries: &[(&str, &str)]) -> Ledger {
    let mut held = ledger(capacity);
    for (name, bytes) in entries {
        let put = held.put_item(name.as_bytes(), bytes.as_bytes());
        assert_eq!(put, Ok(()), "{name}");
    }
    held
}

fn cut(ledger: &mut Ledger, name: &str, count: u64) -> Result<(u64, u64), u64> {
    let cut = ledger.cut_part(name.as_bytes(), count);
    cut.map(|cut| (cut.size, cut.longer))
        .map_err(Refusal::number)
}

fn join(ledger: &mut Ledger, name: &str) -> u64 {
    number(ledger.join_part(name.as_bytes()))
}

/// The bytes of the pieces that a text is cut into.
fn pieces(text: &str, count: u64) -> Vec<String> {
    let mut ledger = held(10_000, &[("/A", text)]);
    let (size, longer) = cut(&mut ledger, "/a", count).unwrap();
    assert_eq!(text.len() as u64, count * size + longer);
    assert!(longer < count);
    check_sums(&ledger);
    let items = items(&ledger);
    for (k, (name, _)) in items.iter().enumerate() {
        let last = if k + 1 == items.len() { ".last" } else { "" };
        assert_eq!(*name, format!("/A/[{k}]{last}.piece"));
    }
    items.into_iter().map(|(_, bytes)| bytes).collect()
}

#[test]
fn cutting() {
    assert_eq!(pieces("0123456789", 3), ["0123", "456", "789"]);
    assert_eq!(pieces("0123456789", 4), ["012", "345", "67", "89"]);
    assert_eq!(pieces("0123456789", 10).concat(), "0123456789");
    assert_eq!(pieces("0123456789", 1), ["0123456789"]);
    assert_eq!(pieces("01", 4), ["0", "1", "", ""]);
    assert_eq!(pieces("", 1), [""]);
    assert_eq!(pieces("", 3), ["", "", ""]);
    let most = pieces(&"x".repeat(513), 256);
    assert_eq!((most.len(), &most[0][..], &most[1][..]), (256, "xxx", "xx"));
}

#[test]
fn joining() {
    let parts = [
        ("/b/[2].LAST.piece", "ef"),
        ("/B/[0].PIECE", "ab"),
        ("/b/[1].piece", "cd"),
        ("/c/[0].last.piece", ""),
        ("/d", "x"),
    ];
    let mut held = held(1000, &parts);
    assert_eq!((join(&mut held, "/b"), join(&mut held, "/C")), (0, 0));
    let expected = [("/B", "abcdef"), ("/c", ""), ("/d", "x")];
    let expected = expected.map(|(name, bytes)| (name.to_string(), bytes.to_string()));
    assert_eq!(items(&held), expected);
    assert_eq!(held.totals().charge, 8 + 2 + 3);
    check_sums(&held);
}

#[test]
fn cut_and_joined_again() {
    let entries = [
        ("/A", "tile"),
        ("/b/[0].last.piece", "x"),
        ("/c/[1].piece", "y"),
    ];
    let mut held = held(10_000, &entries);
    held.put_override(b"/a", b"a/b").unwrap();
    let before = (items(&held), held.totals());
    for count in [1, 2, 3, 4, 5, 200] {
        assert_eq!(cut(&mut held, "/a", count), Ok((4 / count, 4 % count)));
        assert_eq!(held.totals().items, 2 + count);
        assert_eq!(held.totals().parts, 2);
        assert_eq!(
            text(|out| held.read_part(b"/A", 1, out)).as_deref(),
            Ok("ile")
        );
        assert_eq!(text(|out| held.part_at(0, out)).as_deref(), Ok("/A"));
        assert_eq!(
            text(|out| held.media_type(b"/a", out)).as_deref(),
            Ok("a/b")
        );
        assert_eq!(cut(&mut held, "/A", count), Err(18));
        assert_eq!(join(&mut held, "/A"), 0);
        assert_eq!((items(&held), held.totals()), before);
        check_sums(&held);
    }
}

#[test]
fn refusals_in_their_order() {
    // the charge is the capacity
    let entries = [("/a", "x"), ("/b/[0].last.piece", ""), ("/c/[0].piece", "")];
    let mut held = held(3 + 17 + 12, &entries);
    let before = (items(&held), held.totals());
    for (name, count, expected) in [
        ("/a/[0].piece", 0, 4),
        ("/b/[0].last.piece", 2, 4),
        ("", 2, 4),
        ("/_rels/.rels", 0, 13),
        ("/c", 0, 13),
        ("/d", 300, 13),
        ("/b", 0, 18),
        ("/B", 257, 18),
        ("/a", 0, 17),
        ("/a", 257, 17),
        ("/A", u64::MAX, 17),
        ("/a", 1, 15),
        ("/a", 256, 15),
    ] {
        assert_eq!(cut(&mut held, name, count), Err(expected), "{name} {count}");
    }
    for (name, expected) in [
        ("/b/[0].last.piece", 4),
        ("/", 4),
        ("/_rels/.rels", 13),
        ("/c", 13),
        ("/a", 18),
    ] {
        assert_eq!(join(&mut held, name), expected, "{name}");
    }
    assert_eq!((items(&held), held.totals()), before);
}

/// The charge after a cut at the capacity and one above it. Told are the bytes
/// that the suffixes have.
#[test]
fn capacity_of_a_cut() {
    for (count, suffixes) in [
        (1, 15),
        (2, 25),
        (10, 105),
        (11, 116),
        (100, 1095),
        (101, 1107),
        (256, 2967),
    ] {
        let capacity = 2 * count + suffixes + 5;
        let entries = [("/a", "01234")];
        let mut short = held(capacity - 1, &entries);
        assert_eq!(cut(&mut short, "/a", count), Err(15));
        let mut exact = held(capacity, &entries);
        assert_eq!(cut(&mut exact, "/a", count), Ok((5 / count, 5 % count)));
        assert_eq!(exact.totals().charge, capacity);
        assert_eq!(join(&mut exact, "/a"), 0);
        assert_eq!(exact.totals().charge, 7);
    }
}

#[test]
fn items_of_a_cut() {
    let mut held = held(100_000, &[("/a", "tile")]);
    for other in 1..=255 {
        assert_eq!(put(&mut held, &format!("/t{other}")), 0);
        let most = 256 - other;
        assert_eq!(cut(&mut held, "/a", most + 1), Err(15));
        assert_eq!(cut(&mut held, "/a", most), Ok((4 / most, 4 % most)));
        assert_eq!(held.totals().items, 256);
        assert_eq!(join(&mut held, "/a"), 0);
    }
    check_sums(&held);
}
