mod cuts;
mod entries;
mod origins;
mod types;

use super::types::Typed;
use super::*;

const LENGTH: u64 = 1_032_768;
const PACKAGE: &[u8] = b"http://www.example.com/ex.opc";
const KIND: &[u8] = b"http://example.com/t";

fn ledger(capacity: u64) -> Ledger {
    let mut ledger = Ledger::default();
    ledger.start(LENGTH, capacity).unwrap();
    ledger
}

fn number<T>(answer: Result<T, Refusal>) -> u64 {
    answer.map_or_else(Refusal::number, |_| 0)
}

fn put(ledger: &mut Ledger, name: &str) -> u64 {
    number(ledger.put_item(name.as_bytes(), b"x"))
}

/// Checks that the counters are the sums over the sets.
fn check_sums(ledger: &Ledger) {
    let items = || {
        ledger
            .groups
            .values()
            .flat_map(|group| group.items.values())
    };
    let typed = ledger.defaults.values().chain(ledger.overrides.values());
    let relationships = ledger.relationships.values();
    let sum = items().map(Item::charge).sum::<u64>()
        + typed.map(Typed::charge).sum::<u64>()
        + relationships.map(Relationship::charge).sum::<u64>();
    assert_eq!((ledger.items, ledger.charge), (items().count(), sum));
    assert!(ledger.groups.values().all(|group| !group.items.is_empty()));
}

fn text(call: impl FnOnce(&mut [u8]) -> Result<usize, Refusal>) -> Result<String, u64> {
    let mut out = [0; 2000];
    let length = call(&mut out).map_err(Refusal::number)?;
    Ok(String::from_utf8(out[..length].to_vec()).unwrap())
}

#[test]
fn starts() {
    let mut ledger = ledger(100);
    assert_eq!(put(&mut ledger, "/a"), 0);
    for (length, capacity) in [
        (LENGTH + 1, 1_000_001),
        (LENGTH - 1, 1_000_000),
        (32_767, 0),
        (u64::MAX, u64::MAX),
    ] {
        assert_eq!(ledger.start(length, capacity), Err(Refusal::BadStart));
    }
    assert_eq!(ledger.totals().items, 1);
    assert_eq!(ledger.start(LENGTH, 1_000_000), Ok(()));
    assert_eq!(
        ledger.totals(),
        Totals {
            items: 0,
            parts: 0,
            charge: 0
        }
    );
    assert_eq!(ledger.start(32_768, 0), Ok(()));
    assert_eq!(put(&mut ledger, "/a"), 15);
}

#[test]
fn marked_examples() {
    let mut held = ledger(1000);
    assert_eq!(put(&mut held, "/hello/world/doc.xml"), 0);
    assert_eq!(put(&mut held, "/é"), 0);
    for name in ["", "/", "/a%2fb", "/a/%41", "/a/b."] {
        assert_eq!(put(&mut held, name), 4, "{name}");
    }
    assert_eq!(put(&mut held, "/x/_RELS/y.RELS"), 5);
    assert_eq!(put(&mut held, "/_rels/x.rels.xml"), 0);
    assert_eq!(put(&mut held, "/a/[01].piece"), 6);
    let mut held = ledger(1000);
    let answers = ["/a", "/A", "/a/b", "/ab"].map(|name| put(&mut held, name));
    assert_eq!(answers, [0, 10, 11, 0]);
    let mut held = ledger(1000);
    let answers = ["/a/b", "/a", "/A/B/c", "/a-", "/a/"].map(|name| put(&mut held, name));
    assert_eq!(answers, [0, 11, 11, 0, 4]);
    check_sums(&held);
}

#[test]
fn pieces() {
    let mut held = ledger(1000);
    for (name, expected) in [
        ("/T/[2].piece", 0),
        ("/t/[2].last.piece", 10),
        ("/t/[1].last.piece", 12),
        ("/t", 12),
        ("/t/u", 11),
        ("/t/[0].piece", 0),
        ("/t/[3].last.piece", 0),
        ("/t/[3].piece", 10),
        ("/t/[4].piece", 12),
        ("/t/[4].last.piece", 12),
        ("/t/[1].last.piece", 12),
        ("/_rels/t.rels/[0].piece", 5),
        ("/t%2f/[x]", 6),
    ] {
        assert_eq!(put(&mut held, name), expected, "{name}");
    }
    assert_eq!(
        held.totals(),
        Totals {
            items: 3,
            parts: 0,
            charge: 44
        }
    );
    assert_eq!(number(held.read_part(b"/t", 0, &mut [])), 13);
    assert_eq!(put(&mut held, "/T/[1].PIECE"), 0);
    assert_eq!(held.totals().parts, 1);
    assert_eq!(text(|out| held.part_at(0, out)).as_deref(), Ok("/t"));
    assert_eq!(held.drop_item(b"/t/[3].piece"), Err(Refusal::NotHeld));
    assert_eq!(held.drop_item(b"/t/[3].LAST.piece"), Ok(()));
    assert_eq!(held.totals().parts, 0);
    check_sums(&held);
}

#[test]
fn whole_items_refuse_pieces() {
    let mut held = ledger(1000);
    assert_eq!(put(&mut held, "/a"), 0);
    assert_eq!(put(&mut held, "/A/[0].piece"), 12);
    assert_eq!(number(held.find_item(b"/a/[0].last.piece")), 13);
    assert_eq!(number(held.drop_item(b"/a/[0].last.piece")), 13);
    assert_eq!(held.drop_item(b"/A"), Ok(()));
    assert_eq!(number(held.drop_item(b"/A")), 13);
    assert_eq!(number(held.drop_item(b"/_rels/.rels")), 5);
    assert_eq!(number(held.drop_item(b"/a/[x")), 6);
    assert_eq!(
        held.totals(),
        Totals {
            items: 0,
            parts: 0,
            charge: 0
        }
    );
}

#[test]
fn finding_and_viewing() {
    let mut held = ledger(1000);
    held.put_item(b"/a/[0].piece", b"abc").unwrap();
    assert_eq!(held.find_item(b"/A/[0].PIECE"), Ok(3));
    assert_eq!(held.view_item(b"/A/[0].PIECE"), b"abc");
    assert_eq!(number(held.find_item(b"/a/[0].last.piece")), 13);
    assert_eq!(number(held.find_item(b"/a")), 13);
    assert_eq!(number(held.find_item(b"/a/[0]")), 6);
    assert_eq!(number(held.find_item(b"/a.")), 4);
    assert_eq!(number(held.find_item(b"/_rels/.rels")), 13);
    assert_eq!(held.view_item(b"/a"), b"");
}

#[test]
fn reading() {
    let mut held = ledger(1000);
    held.put_item(b"/a/[1].last.piece", b"defg").unwrap();
    held.put_item(b"/a/[0].piece", b"abc").unwrap();
    for (offset, expected) in [
        (0, "abcde-"),
        (2, "cdefg-"),
        (3, "defg--"),
        (6, "g-----"),
        (7, "------"),
        (u64::MAX, "------"),
    ] {
        let mut out = *b"------";
        let length = held.read_part(b"/A", offset, &mut out[..5]).unwrap();
        assert_eq!(&out, expected.as_bytes());
        assert_eq!(length, expected.trim_end_matches('-').len());
    }
    assert_eq!(held.read_part(b"/a", 0, &mut []), Ok(0));
    assert_eq!(number(held.read_part(b"/a/[0].piece", 0, &mut [])), 4);
    assert_eq!(number(held.read_part(b"/b", 0, &mut [])), 13);
}

#[test]
fn positions_in_folded_order() {
    let mut held = ledger(1000);
    for name in ["/b/c", "/B-", "/A", "/z/[0].piece", "/é", "/_"] {
        assert_eq!(put(&mut held, name), 0);
    }
    let expected = ["/_", "/A", "/B-", "/b/c", "/é"];
    for (position, name) in (0..).zip(expected) {
        assert_eq!(text(|out| held.part_at(position, out)).as_deref(), Ok(name));
    }
    assert_eq!(number(held.part_at(5, &mut [])), 13);
    assert_eq!(number(held.part_at(u64::MAX, &mut [])), 13);
    assert_eq!(held.part_at(3, &mut []), Err(Refusal::OutputTooShort(4)));
}

#[test]
fn full_sets_and_capacity() {
    let mut held = ledger(1_000_000);
    for i in 0..64 {
        assert_eq!(held.put_default(format!("e{i}").as_bytes(), b"a/b"), Ok(()));
        assert_eq!(
            held.put_override(format!("/o{i}").as_bytes(), b"a/b"),
            Ok(())
        );
    }
    assert_eq!(number(held.put_default(b"x", b"a/b")), 15);
    assert_eq!(number(held.put_default(b"e1", b"a/b")), 10);
    assert_eq!(number(held.put_override(b"/x", b"a/b")), 15);
    for i in 0..256 {
        assert_eq!(put(&mut held, &format!("/i{i}")), 0);
        let id = format!("r{i}");
        assert_eq!(
            number(held.put_relationship(b"/", id.as_bytes(), KIND, 1, b"x")),
            0
        );
    }
    assert_eq!(put(&mut held, "/x"), 15);
    assert_eq!(number(held.put_relationship(b"/", b"x", KIND, 1, b"x")), 15);
    check_sums(&held);
    let mut held = ledger(5);
    assert_eq!(number(held.put_item(b"/a", b"1234")), 15);
    assert_eq!(number(held.put_item(b"/a", b"123")), 0);
    assert_eq!(number(held.put_default(b"a", b"a/b")), 15);
    assert_eq!(held.drop_item(b"/A"), Ok(()));
    assert_eq!(held.put_default(b"ab", b"a/b"), Ok(()));
}

fn examples() -> Ledger {
    let mut held = ledger(10_000);
    held.put_relationship(b"/", b"IDI1", KIND, 0, b"a.xml")
        .unwrap();
    held.put_relationship(b"/", b"IDE1", KIND, 1, b"a.xml")
        .unwrap();
    held.put_relationship(b"/foo/test.xml", b"IDI2", KIND, 0, b"b.xml")
        .unwrap();
    held.put_relationship(b"/foo/test.xml", b"IDE2", KIND, 1, b"b.xml")
        .unwrap();
    held.put_relationship(b"/a/b/c", b"G", KIND, 0, b"../../g")
        .unwrap();
    held
}

fn resolved(held: &Ledger, source: &str, id: &str) -> Result<(String, u64, bool), u64> {
    let mut out = [0; 1100];
    let answer = held.resolve_relationship(source.as_bytes(), id.as_bytes(), PACKAGE, &mut out);
    let answer = answer.map_err(Refusal::number)?;
    let text = String::from_utf8(out[..answer.length].to_vec()).unwrap();
    Ok((text, answer.mode, answer.held))
}

#[test]
fn resolving_relationships() {
    let mut held = examples();
    let base = "pack://http%3A,,www.example.com,ex.opc";
    for (source, id, expected, mode) in [
        ("/", "IDI1", format!("{base}/a.xml"), 0),
        ("/", "IDE1", "http://www.example.com/a.xml".into(), 1),
        ("/FOO/test.xml", "IDI2", format!("{base}/foo/b.xml"), 0),
        (
            "/foo/test.xml",
            "IDE2",
            "http://www.example.com/b.xml".into(),
            1,
        ),
        ("/a/b/c", "G", format!("{base}/g"), 0),
    ] {
        assert_eq!(resolved(&held, source, id), Ok((expected, mode, false)));
    }
    assert_eq!(put(&mut held, "/Foo/B.xml/[0].piece"), 0);
    assert!(!resolved(&held, "/foo/test.xml", "IDI2").unwrap().2);
    assert_eq!(put(&mut held, "/Foo/B.xml/[1].last.piece"), 0);
    assert!(resolved(&held, "/foo/test.xml", "IDI2").unwrap().2);
    assert!(!resolved(&held, "/foo/test.xml", "IDE2").unwrap().2);
    assert_eq!(resolved(&held, "/", "idi1"), Err(13));
    assert_eq!(resolved(&held, "x", "1"), Err(4));
    assert_eq!(resolved(&held, "/_rels/.rels", "1"), Err(5));
    assert_eq!(resolved(&held, "/", "1"), Err(8));
    let short = held.resolve_relationship(b"/a/b/c", b"G", PACKAGE, &mut [0; 39]);
    assert_eq!(short, Err(Refusal::OutputTooShort(40)));
    let bad = held.resolve_relationship(b"/a/b/c", b"H", b"x", &mut []);
    assert_eq!(bad, Err(Refusal::BadTarget));
    assert_eq!(number(held.drop_relationship(b"/A/b/C", b"g")), 13);
    assert_eq!(held.drop_relationship(b"/A/b/C", b"G"), Ok(()));
    check_sums(&held);
}

#[test]
fn relationship_refusals() {
    let mut held = ledger(1000);
    let mut put = |source: &[u8], id: &[u8], kind: &[u8], mode, target: &[u8]| {
        number(held.put_relationship(source, id, kind, mode, target))
    };
    assert_eq!(put(b"", b"", b"", 2, b""), 4);
    assert_eq!(put(b"/_rels/x.rels", b"", b"", 2, b""), 5);
    assert_eq!(put(b"/", b"", KIND, 0, b"a"), 8);
    assert_eq!(put(b"/", b"a", b"x", 0, b"a"), 8);
    assert_eq!(put(b"/", b"a", KIND, 2, b""), 8);
    assert_eq!(put(b"/", b"a", KIND, 0, b""), 9);
    assert_eq!(put(b"/", b"a", KIND, 0, b"a."), 9);
    assert_eq!(put(b"/", b"a", KIND, 0, b"_rels/.rels"), 5);
    assert_eq!(put(b"/", b"a", KIND, 1, b"_rels/.rels"), 0);
    assert_eq!(put(b"/", b"a", KIND, 0, b"x"), 10);
    assert_eq!(put(b"/", b"A", KIND, 1, b"a b"), 9);
    assert_eq!(put(b"/", b"A", KIND, 0, b"x"), 0);
    assert_eq!(put(b"/X", b"a", KIND, 0, b"y"), 0);
    assert_eq!(put(b"/x", b"a", KIND, 0, b"y"), 10);
    check_sums(&held);
}

#[test]
fn writing_relationships() {
    let mut held = ledger(1000);
    let start = "<?xml version=\"1.0\" encoding=\"UTF-8\"?>\n<Relationships xmlns=\
                 \"http://schemas.openxmlformats.org/package/2006/relationships\">\n";
    held.put_relationship(b"/A", b"a", b"t:1", 0, b"x&y")
        .unwrap();
    held.put_relationship(b"/a", b"B", b"t:&", 1, b"?q")
        .unwrap();
    held.put_relationship(b"/a/b", b"c", b"t:3", 0, b"z")
        .unwrap();
    let expected =
        "<Relationship Id=\"B\" Type=\"t:&amp;\" Target=\"?q\" TargetMode=\"External\"/>\n\
                    <Relationship Id=\"a\" Type=\"t:1\" Target=\"x&amp;y\"/>\n";
    let of = |source: &str| text(|out| held.write_relationships(source.as_bytes(), out));
    assert_eq!(of("/a"), Ok(format!("{start}{expected}</Relationships>\n")));
    assert_eq!(of("/"), Ok(format!("{start}</Relationships>\n")));
    assert_eq!(of("x"), Err(4));
    assert_eq!(of("/_rels/.rels"), Err(5));
}
