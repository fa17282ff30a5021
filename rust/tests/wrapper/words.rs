//! Numbers and words: refusals, modes, item names.

use crate::support::{show, Random};
use std::io;
use zombirels::names::{is_equivalent, take_apart, ItemName, Piece};
use zombirels::package::Mode;
use zombirels::Refusal;

#[test]
fn refusals() {
    let mut texts = Vec::new();
    for number in 1..=20 {
        let refusal = Refusal::from_number(number).expect("a refusal");
        assert_eq!(u64::from(refusal.number()), number);
        texts.push(refusal.to_string());
        let error = io::Error::from(refusal);
        let inner = error.get_ref().and_then(|inner| inner.downcast_ref());
        assert_eq!(inner, Some(&refusal));
    }
    texts.sort();
    texts.dedup();
    assert_eq!(texts.len(), 20);
    for number in [0, 21, 255, 256 + 1, u64::MAX] {
        assert_eq!(Refusal::from_number(number), None);
    }
    let short = Refusal::from_number(3);
    assert_eq!(short, Some(Refusal::OutputTooShort { needed: 0 }));
}

#[test]
fn modes() {
    for (mode, number, word) in [
        (Mode::Internal, 0, "Internal"),
        (Mode::External, 1, "External"),
    ] {
        assert_eq!((mode.number(), u64::from(mode)), (number, number));
        assert_eq!(Mode::try_from(number), Ok(mode));
        assert_eq!((mode.as_str(), mode.to_string().as_str()), (word, word));
        assert_eq!(word.parse(), Ok(mode));
        assert_eq!(format!("{mode:>10}"), format!("{word:>10}"));
    }
    let refused = Err(Refusal::BadRelationshipField);
    for number in [2, 256, u64::MAX] {
        assert_eq!(Mode::try_from(number), refused);
    }
    for word in ["", "internal", "EXTERNAL", "External ", "0"] {
        assert_eq!(word.parse::<Mode>(), refused);
    }
}

/// Names go apart and together again, but for the case of the suffix.
#[test]
fn item_names() {
    let mut random = Random::new("item names");
    for _ in 0..10_000 {
        let name = random.name(&[b"a", b"B.c", b"\xC3\xA9", b"[a]", b"a[0].piece"], 3);
        let (number, last) = (random.pick(&[0, 1, 10, 9999]), random.once_in(2));
        let piece = Piece { number, last };
        let name = match random.once_in(3) {
            true => name,
            false => [name, piece.to_string().into_bytes()].concat(),
        };
        let name = random.flip_case(&name);
        let Ok(item) = take_apart(&name) else {
            continue;
        };
        let together = item.to_string();
        assert!(is_equivalent(&together, &name), "{}", show(&name));
        assert!(together.as_bytes().starts_with(item.prefix));
        assert_eq!(ItemName::try_from(&name[..]), Ok(item));
        let text = std::str::from_utf8(&name).expect("a text");
        assert_eq!(ItemName::try_from(text), Ok(item));
    }
    assert_eq!(
        Piece {
            number: 2,
            last: true
        }
        .to_string(),
        "/[2].last.piece"
    );
    assert_eq!(
        Piece {
            number: 0,
            last: false
        }
        .to_string(),
        "/[0].piece"
    );
}

/// Texts and bytes of all kinds are taken.
#[test]
fn kinds_of_texts() {
    let mut slide = zombirels::package::PackageBuf::start(100).expect("a capacity");
    slide.put_item("/a", b"bytes").expect("room");
    slide.put_item(b"/b", vec![1, 2]).expect("room");
    slide.put_item(String::from("/c"), [3; 3]).expect("room");
    slide.put_item(vec![b'/', b'd'], "text").expect("room");
    slide.put_item(&b"/e"[..], String::new()).expect("room");
    let names: Vec<String> = slide
        .parts()
        .expect("a package")
        .map(|part| part.to_string())
        .collect();
    assert_eq!(names, ["/a", "/b", "/c", "/d", "/e"]);
}
