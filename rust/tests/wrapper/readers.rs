//! Parts read as streams, their lengths, and views.

use crate::support::{show, Random};
use std::io::{self, ErrorKind, Read, Seek, SeekFrom};
use zombirels::package::{PackageBuf, PartReader};
use zombirels::Refusal;

/// Parts of few bytes and of many, whole, in a few pieces and in many.
fn parts(random: &mut Random) -> (PackageBuf, Vec<(String, Vec<u8>)>) {
    let mut slide = PackageBuf::start(60_000).expect("a capacity");
    let mut parts = Vec::new();
    let forms = [
        (0, 0),
        (0, 1),
        (0, 4),
        (1, 0),
        (1, 3),
        (700, 0),
        (700, 1),
        (701, 100),
    ];
    for (i, (size, pieces)) in forms.into_iter().enumerate() {
        let (name, bytes) = (format!("/Part{i}"), random.bytes(size));
        slide.put_item(&name, &bytes).expect("room");
        if pieces > 0 {
            slide.cut_part(&name, pieces).expect("room");
        }
        parts.push((name, bytes));
    }
    (slide, parts)
}

#[test]
fn lengths() {
    let mut random = Random::new("lengths");
    let (mut slide, parts) = parts(&mut random);
    for (name, bytes) in &parts {
        assert_eq!(slide.part_len(name.to_uppercase()), Ok(bytes.len()));
        let reader = slide.part_reader(name).expect("a part");
        assert_eq!(
            (reader.len(), reader.is_empty()),
            (bytes.len(), bytes.is_empty())
        );
        assert_eq!(slide.read_part_to_vec(name).as_ref(), Ok(bytes));
    }
    slide.put_item("/lacks/[1].last.piece", "x").expect("room");
    for (name, refusal) in [
        ("/lacks", Refusal::NotHeld),
        ("/none", Refusal::NotHeld),
        ("none", Refusal::NotAPartName),
        ("", Refusal::NotAPartName),
        ("/lacks/[1].last.piece", Refusal::NotAPartName),
    ] {
        assert_eq!(slide.read_part(name, 0, &mut []), Err(refusal), "{name}");
        assert_eq!(slide.part_len(name), Err(refusal), "{name}");
        assert_eq!(slide.read_part_to_vec(name), Err(refusal), "{name}");
        assert_eq!(slide.part_reader(name).err(), Some(refusal), "{name}");
    }
}

/// Reads the rest, at most `most` bytes by each call.
fn rest(reader: &mut PartReader<'_>, most: usize) -> Vec<u8> {
    let mut bytes = Vec::new();
    let mut out = vec![0; most];
    loop {
        let length = reader.read(&mut out).expect("a part");
        if length == 0 {
            return bytes;
        }
        bytes.extend_from_slice(&out[..length]);
    }
}

#[test]
fn every_place() {
    let mut random = Random::new("every place");
    let (slide, parts) = parts(&mut random);
    for (name, bytes) in &parts {
        let mut reader = slide.part_reader(name).expect("a part");
        let mut all = Vec::new();
        reader.read_to_end(&mut all).expect("a part");
        assert!(all == *bytes, "{} for {}", show(&all), show(bytes));
        let length = bytes.len() as i64;
        for place in 0..=length + 2 {
            let end = &bytes[(place as usize).min(bytes.len())..];
            let before = reader.position() as i64;
            let ways = [
                SeekFrom::Start(place as u64),
                SeekFrom::End(place - length),
                SeekFrom::Current(place - before),
            ];
            let told = reader.seek(random.pick(&ways)).expect("a place");
            assert_eq!((told, reader.position()), (place as u64, place as u64));
            assert_eq!(reader.stream_position().expect("a place"), place as u64);
            let most = random.pick(&[1, 3, 64, 10_000]);
            assert!(rest(&mut reader.clone(), most) == end);
            let mut copied = Vec::new();
            io::copy(&mut reader, &mut copied).expect("a part");
            assert!(copied == end);
        }
    }
}

#[test]
fn no_place() {
    let mut slide = PackageBuf::start(100).expect("a capacity");
    slide.put_item("/a", "tile").expect("room");
    let mut reader = slide.part_reader("/a").expect("a part");
    reader.seek(SeekFrom::Start(2)).expect("a place");
    for way in [
        SeekFrom::Current(-3),
        SeekFrom::End(-5),
        SeekFrom::Current(i64::MIN),
        SeekFrom::End(i64::MIN),
    ] {
        let error = reader.seek(way).expect_err("no place");
        assert_eq!(error.kind(), ErrorKind::InvalidInput);
        assert_eq!(reader.position(), 2);
    }
    reader.seek(SeekFrom::Start(u64::MAX)).expect("a place");
    assert_eq!(reader.read(&mut [0; 4]).expect("a part"), 0);
    assert!(reader.seek(SeekFrom::Current(1)).is_err());
    reader.rewind().expect("a place");
    assert_eq!(reader.read(&mut []).expect("a part"), 0);
    assert_eq!(rest(&mut reader, 3), b"tile");
    let shown = format!("{reader:?}");
    assert_eq!(
        shown,
        "PartReader { name: \"/a\", length: 4, position: 4, .. }"
    );
}

/// A view tells what is empty from what is missing.
#[test]
fn views() {
    let mut slide = PackageBuf::start(100).expect("a capacity");
    slide.put_item("/empty", "").expect("room");
    slide.put_item("/t/[0].piece", "").expect("room");
    slide.put_item("/t/[2].piece", "tile").expect("room");
    assert_eq!(slide.view_item("/EMPTY"), Some(&b""[..]));
    assert_eq!(slide.view_item("/t/[0].piece"), Some(&b""[..]));
    assert_eq!(slide.view_item("/T/[2].PIECE"), Some(&b"tile"[..]));
    for missing in [
        "/t",
        "/t/[1].piece",
        "/t/[0].last.piece",
        "/e",
        "",
        "t",
        "/t/[x",
    ] {
        assert_eq!(slide.view_item(missing), None, "{missing}");
    }
}
