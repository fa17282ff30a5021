//! The calls on types, relationships and streams: the archive beside the
//! reference. Puts and drops are timed in batches, as those of items are.

mod support;

use support::package::{asked, buffer, changes, tile, Change, Pair, BATCH};
use zombirels::package::Mode;

/// What was asked for, and the seconds of the archive's type origin and of its
/// media type call on the same names.
type Beside = (&'static str, [f64; 2]);

/// Types and relationships beside 200 tiles: 20 Defaults and 20 Overrides, 180
/// relationships, and 40 more of each in turn. Answers what is to be printed of
/// type origins beside media types.
fn fields() -> Vec<Beside> {
    let mut buffer = buffer();
    let mut pair = Pair::new(&mut buffer);
    for i in 0..200 {
        pair.put(&tile(i), b"tile");
    }
    let media_type = b"image/vnd.example.tile+tiff";
    let extension = |i: usize| format!("ext{}-{i}", i * 7 % 20).into_bytes();
    let (source, kind) = (
        b"/slides/2026/ovary-17/index",
        b"http://example.com/2026/tile",
    );
    let (target, internal) = (b"tiles/L3/r012c044.tiff", Mode::Internal);
    let id = |i: usize| format!("r{}-{i}", i * 7 % 20).into_bytes();
    for i in 40..60 {
        pair.put_default(&extension(i), media_type);
        pair.put_override(&tile(i), media_type);
    }
    for i in 40..220 {
        pair.put_relationship(source, &id(i), kind, internal, target);
    }
    let Pair { package, ledger } = &mut pair;
    let keys: Vec<Vec<u8>> = (0..BATCH).map(extension).collect();
    changes(
        ["put Default among 40", "drop Default"],
        &keys,
        |extension, change| match change {
            Change::Put => package.put_default(extension, media_type).expect("room"),
            Change::Drop => package.drop_default(extension).expect("held"),
        },
        |extension, change| match change {
            Change::Put => ledger.put_default(extension, media_type).expect("room"),
            Change::Drop => ledger.drop_default(extension).expect("held"),
        },
    );
    let keys: Vec<Vec<u8>> = (0..BATCH).map(tile).collect();
    changes(
        ["put Override among 40", "drop Override"],
        &keys,
        |name, change| match change {
            Change::Put => package.put_override(name, media_type).expect("room"),
            Change::Drop => package.drop_override(name).expect("held"),
        },
        |name, change| match change {
            Change::Put => ledger.put_override(name, media_type).expect("room"),
            Change::Drop => ledger.drop_override(name).expect("held"),
        },
    );
    let keys: Vec<Vec<u8>> = (0..BATCH).map(id).collect();
    changes(
        ["put relationship among 200", "drop relationship"],
        &keys,
        |id, change| match change {
            Change::Put => {
                let put = package.put_relationship(source, id, kind, internal, target);
                put.expect("room");
            }
            Change::Drop => package.drop_relationship(source, id).expect("held"),
        },
        |id, change| match change {
            Change::Put => {
                let put = ledger.put_relationship(source, id, kind, 0, target);
                put.expect("room");
            }
            Change::Drop => ledger.drop_relationship(source, id).expect("held"),
        },
    );
    media_types(pair)
}

/// The types of 20 tiles by their Overrides, and of 140 by one Default; then
/// what they come from, and what those of the 140 do without it.
fn media_types(mut pair: Pair) -> Vec<Beside> {
    pair.put_default(b"tiff", b"image/tiff");
    let names: Vec<Vec<u8>> = (0..200).map(asked).collect();
    let (by_override, by_default) = (&names[40..60], &names[60..]);
    let Pair { package, ledger } = &pair;
    let (mut out, mut other) = ([0; 127], [0; 127]);
    for (what, names) in [
        ("media type by Override", by_override),
        ("media type by Default", by_default),
    ] {
        support::compare(
            what,
            50_000 / names.len(),
            names.len(),
            |i| package.media_type(&names[i], &mut out).expect("a type"),
            |i| ledger.media_type(&names[i], &mut other).expect("a type"),
        );
        assert_eq!(out, other);
    }
    let mut rows = vec![
        origins("type origin by Override", &pair, by_override),
        origins("type origin by Default", &pair, by_default),
    ];
    pair.package.drop_default(b"tiff").expect("held");
    pair.ledger.drop_default(b"tiff").expect("held");
    rows.push(origins("type origin, neither", &pair, by_default));
    rows
}

/// What the types of these parts come from.
fn origins(what: &'static str, pair: &Pair, names: &[Vec<u8>]) -> Beside {
    let Pair { package, ledger } = pair;
    let (mut out, mut other) = ([0; 255], [0; 255]);
    let (cases, passes) = (names.len(), 50_000 / names.len());
    let mut origin = |i: usize| {
        let origin = package.type_origin(&names[i], &mut out).expect("a part");
        origin.number() as usize + origin.key().map_or(0, <[u8]>::len)
    };
    support::compare(what, passes, cases, &mut origin, |i| {
        let origin = ledger.type_origin(&names[i], &mut other).expect("a part");
        origin.kind as usize + origin.length
    });
    let mut bytes = [0; 127];
    let mut media_type = |i: usize| package.media_type(&names[i], &mut bytes).unwrap_or(0);
    let times = support::in_turn(passes, cases, [&mut origin, &mut media_type]);
    assert_eq!(out, other);
    (what, times)
}

fn print_beside(rows: Vec<Beside>) {
    println!("the archive's type origin beside its own media type call");
    let (empty, origin, media_type, ratio) = ("", "origin", "media type", "ratio");
    println!("{empty:26} {origin:>10} {media_type:>10} {ratio:>8}");
    for (what, [origin, media_type]) in rows {
        support::print_line(what, origin, media_type);
    }
}

/// What relationships lead to, among 200, beside 200 tiles: half of them lead
/// to tiles, the others out of the package.
fn resolves() {
    let mut buffer = buffer();
    let mut pair = Pair::new(&mut buffer);
    for i in 0..200 {
        pair.put(&tile(i), b"tile");
    }
    let source = b"/slides/2026/ovary-17/index";
    let (kind, base) = (b"a:tile", b"http://www.example.com/slides/2026.opc");
    let ids: Vec<Vec<u8>> = (0..200)
        .map(|i| format!("r{}-{i}", i * 7 % 20).into_bytes())
        .collect();
    for (i, id) in ids.iter().enumerate() {
        let (mode, target) = match i % 2 {
            0 => (
                Mode::Internal,
                tile(i)[b"/slides/2026/ovary-17/".len()..].to_vec(),
            ),
            _ => (Mode::External, format!("../masks/m{i}.tiff").into_bytes()),
        };
        pair.put_relationship(source, id, kind, mode, &target);
    }
    let Pair { package, ledger } = pair;
    let (mut out, mut other) = ([0; 255], [0; 255]);
    for (what, first) in [
        ("resolve internal among 200", 0),
        ("resolve external among 200", 1),
    ] {
        support::compare(
            what,
            500,
            100,
            |i| {
                let id = &ids[first + 2 * i];
                let resolved = package.resolve_relationship(source, id, base, &mut out);
                resolved.expect("held").length
            },
            |i| {
                let id = &ids[first + 2 * i];
                let resolved = ledger.resolve_relationship(source, id, base, &mut other);
                resolved.expect("held").length
            },
        );
        assert_eq!(out, other);
    }
}

/// Streams of 40 types and of 100 relationships, beside as many of another source.
fn streams() {
    let mut buffer = buffer();
    let mut pair = Pair::new(&mut buffer);
    let (media_type, kind) = (
        b"image/vnd.example.tile+tiff",
        b"http://example.com/2026/tile",
    );
    for i in 0..20 {
        let extension = format!("ext{i}").into_bytes();
        pair.put_default(&extension, media_type);
        pair.put_override(&tile(i), media_type);
    }
    let source = b"/slides/2026/ovary-17/index";
    for i in 0..200 {
        let source = if i % 2 == 0 {
            &source[..]
        } else {
            b"/slides/2026/other"
        };
        let id = format!("r{i}").into_bytes();
        let target = format!("tiles/L3/r{i}&c=044.tiff").into_bytes();
        pair.put_relationship(source, &id, kind, Mode::Internal, &target);
    }
    let Pair { package, ledger } = pair;
    let (mut out, mut other) = (vec![0; 1 << 16], vec![0; 1 << 16]);
    support::compare(
        "write types, 40",
        2000,
        1,
        |_| package.write_types(&mut out).expect("a package"),
        |_| ledger.write_types(&mut other).expect("a package"),
    );
    assert_eq!(out, other);
    support::compare(
        "write relationships, 100",
        1000,
        1,
        |_| {
            package
                .write_relationships(source, &mut out)
                .expect("a source")
        },
        |_| {
            ledger
                .write_relationships(source, &mut other)
                .expect("a source")
        },
    );
    assert_eq!(out, other);
}

fn main() {
    support::heading();
    let origins = fields();
    resolves();
    streams();
    print_beside(origins);
}
