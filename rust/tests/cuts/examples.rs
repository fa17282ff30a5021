//! Examples, by hand.

use crate::{buffer, Pair};
use zombirels::package::{Cut, Package};
use zombirels::script::Script;
use zombirels::Refusal;

/// The bytes of the pieces that a text is cut into.
fn pieces(text: &str, count: usize) -> Vec<String> {
    let mut buffer = buffer(10_000);
    let mut pair = Pair::start(&mut buffer);
    pair.put(b"/Tile.x", text.as_bytes());
    let (size, longer) = pair.cut(b"/tILE.X", count as u64).expect("a cut");
    assert_eq!((text.len(), longer < count), (count * size + longer, true));
    pair.check();
    let text = |bytes: &[u8]| String::from_utf8_lossy(bytes).into_owned();
    let piece = |k| match k + 1 == count {
        false => format!("/Tile.x/[{k}].piece"),
        true => format!("/Tile.x/[{k}].last.piece"),
    };
    let view = |k| pair.package.view_item(piece(k)).expect("a piece");
    let views = (0..count).map(|k| text(view(k)));
    views.collect()
}

#[test]
fn cut_contents() {
    assert_eq!(pieces("0123456789", 3), ["0123", "456", "789"]);
    assert_eq!(pieces("0123456789", 4), ["012", "345", "67", "89"]);
    assert_eq!(pieces("0123456789", 5), ["01", "23", "45", "67", "89"]);
    assert_eq!(pieces("0123456789", 1), ["0123456789"]);
    assert_eq!(pieces("0123456789", 10).len(), 10);
    assert_eq!(pieces("012", 4), ["0", "1", "2", ""]);
    assert_eq!(pieces("", 1), [""]);
    assert_eq!(pieces("", 3), ["", "", ""]);
    assert_eq!(pieces(&"x".repeat(257), 256)[..2], ["xx", "x"]);
}

/// The spellings: pieces take that of the part, the whole that of piece 0.
#[test]
fn spellings() {
    let mut buffer = buffer(1000);
    let package = Package::start(&mut buffer, 1000).expect("room");
    let at = |package: &Package| {
        let mut out = [0; 255];
        let length = package.part_at(0, &mut out).expect("a part");
        String::from_utf8_lossy(&out[..length]).into_owned()
    };
    package.put_item(b"/LEFT/t3", b"abc").expect("room");
    let expected = Cut { size: 1, longer: 1 };
    assert_eq!(package.cut_part(b"/left/T3", 2), Ok(expected));
    assert_eq!(at(package), "/LEFT/t3");
    assert_eq!(
        package.totals().map(|totals| totals.charge),
        Ok(8 * 2 + 25 + 3)
    );
    // piece 0 in another spelling
    package.drop_item(b"/left/t3/[0].piece").expect("held");
    assert_eq!(package.join_part(b"/LEFT/t3"), Err(Refusal::NotHeld));
    package.put_item(b"/Left/T3/[0].PIECE", b"").expect("room");
    assert_eq!(package.join_part(b"/LEFT/t3"), Ok(()));
    assert_eq!(at(package), "/Left/T3");
    assert_eq!(package.view_item(b"/left/t3"), Some(&b"c"[..]));
    assert_eq!(package.totals().map(|totals| totals.charge), Ok(8 + 1));
}

/// A part of one piece is in pieces: it is joined, not cut.
#[test]
fn one_piece() {
    let mut buffer = buffer(100);
    let mut pair = Pair::start(&mut buffer);
    pair.put(b"/a/[0].last.piece", b"tile");
    assert_eq!(pair.cut(b"/a", 1), Err(18));
    assert_eq!(pair.join(b"/A"), Ok((0, 0)));
    assert_eq!(pair.join(b"/a"), Err(18));
    assert_eq!(pair.cut(b"/A", 1), Ok((4, 0)));
    let piece = pair.package.view_item(b"/a/[0].last.piece");
    assert_eq!(piece, Some(&b"tile"[..]));
    assert_eq!(pair.package.view_item(b"/a"), None);
    pair.check();
}

/// The longest name, with the longest suffix of a cut behind it.
#[test]
fn the_longest_name() {
    let name = [&b"/"[..], &b"N".repeat(254)].concat();
    let mut buffer = buffer(80_000);
    let mut pair = Pair::start(&mut buffer);
    pair.put(&name, &[b'x'; 1000]);
    assert_eq!(pair.cut(&name.to_ascii_lowercase(), 256), Ok((3, 232)));
    assert_eq!(pair.charge(), 256 * 255 + 2967 + 1000);
    pair.check();
    let last = [&name[..], b"/[255].last.piece"].concat();
    assert_eq!(pair.package.find_item(&last), Ok(3));
    assert_eq!(pair.join(&name), Ok((0, 0)));
    pair.check();
}

/// Pieces of tiles that alternate, in a script.
#[test]
fn tiles_that_alternate() {
    let mut script = Script::new();
    script.put_item(b"/t1", b"first tile");
    script.put_item(b"/t2", b"second tile");
    script.cut_part(b"/t1", 2).cut_part(b"/t2", 3);
    for name in [
        "/t1/[0].piece",
        "/t2/[0].piece",
        "/t1/[1].last.piece",
        "/t2/[1].piece",
    ] {
        script.view_item(name.as_bytes(), 10);
    }
    script.join_part(b"/t2").join_part(b"/t1").totals();
    let mut buffer = buffer(200);
    let package = Package::start(&mut buffer, 200).expect("room");
    let mut out = vec![0; script.output_len()];
    let answers: Vec<_> = package.run(&script, &mut out).into_iter().collect();
    assert_eq!(answers[2].cut(), Ok(Cut { size: 5, longer: 0 }));
    assert_eq!(answers[3].cut(), Ok(Cut { size: 3, longer: 2 }));
    let views: Vec<_> = answers[4..8]
        .iter()
        .flat_map(|answer| answer.output())
        .collect();
    assert_eq!(views, [&b"first"[..], b"seco", b" tile", b"nd t"]);
    assert_eq!((answers[8].done(), answers[9].done()), (Ok(()), Ok(())));
    assert_eq!(answers[10].values, Ok([2, 2, 3 + 10 + 3 + 11]));
}
