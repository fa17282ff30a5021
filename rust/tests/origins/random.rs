//! Random packages: the entry that is named is held, the media type is that
//! entry's, and neither comes exactly where there is no media type.

use crate::support::{numbers, Random};
use crate::{buffer, origin};
use reference::names::{extension, is_equivalent};
use std::collections::BTreeMap;
use zombirels::package::{Package, OVERHEAD};

/// A key and its media type.
type Entry = (Vec<u8>, Vec<u8>);

/// What a package holds: plain lists of accepted puts. Each type is another.
#[derive(Default)]
struct Held {
    defaults: Vec<Entry>,
    overrides: Vec<Entry>,
}

#[rustfmt::skip]
const NAMES: [&[u8]; 16] = [
    b"/a.tiff", b"/b.TIFF", b"/c.xml", b"/d", b"/tiff", b"/e.xml.tiff", b"/f.tiff/g", b"/f.tiff/h.xml", b"/.rels", b"/R&D.&", b"/i.%20",
    b"/\xC3\xA9.\xC3\xA9", b"/j.none", b"/k.abcdefghijklmnopqrstuvwxyz-1234", b"/k.abcdefghijklmnopqrstuvwxyz-12345", b"/l.tiff-",
];

#[rustfmt::skip]
const EXTENSIONS: [&[u8]; 10] = [
    b"tiff", b"xml", b"rels", b"&", b"%20", b"\xC3\xA9", b"\xC3\x89", b"tif", b"tiff-", b"abcdefghijklmnopqrstuvwxyz-1234",
];

/// What is asked for beside the names: no part names, and none of a part.
const OTHERS: [&[u8]; 6] = [
    b"",
    b"/",
    b"/a.tiff.",
    b"/none.tiff",
    b"/p.tiff",
    b"/f.tiff",
];

/// Puts most of the names, whole or in pieces, and some Defaults and
/// Overrides, each in any case and in any order; some are dropped again.
fn filled(random: &mut Random, package: &mut Package) -> Held {
    let mut held = Held::default();
    for number in 0..random.below(100) {
        let media_type = format!("t/{number}").into_bytes();
        let name = random.pick(&NAMES);
        let name = random.flip_case(name);
        let extension = random.pick(&EXTENSIONS);
        let extension = random.flip_case(extension);
        match random.below(8) {
            0 | 1 if random.once_in(3) => {
                let piece = [&name[..], b"/[0].last.piece"].concat();
                package.put_item(&piece, b"tile").ok();
            }
            0..=2 => drop(package.put_item(&name, b"tile")),
            3 | 4 if package.put_default(&extension, &media_type).is_ok() => {
                held.defaults.push((extension, media_type));
            }
            5 | 6 if package.put_override(&name, &media_type).is_ok() => {
                held.overrides.push((name, media_type));
            }
            7 if package.drop_override(&name).is_ok() => {
                held.overrides.retain(|(key, _)| !is_equivalent(key, &name));
            }
            7 if package.drop_default(&extension).is_ok() => {
                held.defaults
                    .retain(|(key, _)| !is_equivalent(key, &extension));
            }
            _ => {}
        }
    }
    package.put_item(b"/p.tiff/[0].piece", b"no part yet").ok();
    held
}

fn media_type(package: &[u8], name: &[u8]) -> Result<Vec<u8>, u64> {
    let mut out = [0; 127];
    let length = Package::open(package).media_type(name, &mut out);
    let length = length.map_err(|refusal| numbers(refusal).0)?;
    Ok(out[..length].to_vec())
}

impl Held {
    fn of_name(&self, name: &[u8]) -> Option<&Entry> {
        self.overrides
            .iter()
            .find(|(key, _)| is_equivalent(key, name))
    }

    fn of_extension(&self, name: &[u8]) -> Option<&Entry> {
        let asked = extension(name)?;
        self.defaults
            .iter()
            .find(|(key, _)| is_equivalent(key, asked))
    }

    /// Checks a name's answers. Tells the kind, or the number of the refusal.
    fn check(&self, package: &[u8], name: &[u8]) -> Result<u64, u64> {
        let media_type = media_type(package, name);
        let (kind, key) = match origin(package, name, 255) {
            Ok(found) => found,
            Err((number, _)) => {
                assert_eq!(media_type, Err(number));
                return Err(number);
            }
        };
        let entry = match kind {
            2 => self.of_name(name),
            1 => {
                assert_eq!(self.of_name(name), None);
                self.of_extension(name)
            }
            _ => {
                assert_eq!(media_type, Err(14));
                assert_eq!((self.of_name(name), self.of_extension(name)), (None, None));
                return Ok(0);
            }
        };
        let (held, its_type) = entry.expect("the entry is held");
        assert_eq!((&key, media_type.as_ref()), (held, Ok(its_type)));
        self.check_dropped(package, name, kind, &key);
        Ok(kind)
    }

    /// Without the entry that is named the type is another or none: that of the
    /// Default where it was the Override's.
    fn check_dropped(&self, package: &[u8], name: &[u8], kind: u64, key: &[u8]) {
        let before = media_type(package, name);
        let mut dropped = package.to_vec();
        let without = Package::open_mut(&mut dropped);
        let drop = match kind {
            2 => without.drop_override(key),
            _ => without.drop_default(key),
        };
        drop.expect("held");
        let after = media_type(&dropped, name);
        assert_ne!(before, after);
        let expected = match self.of_extension(name) {
            Some((key, its_type)) if kind == 2 => {
                assert_eq!(after.as_ref(), Ok(its_type));
                (1, key.clone())
            }
            _ => {
                assert_eq!(after, Err(14));
                (0, Vec::new())
            }
        };
        assert_eq!(origin(&dropped, name, 255), Ok(expected));
    }
}

#[test]
fn random_packages() {
    let mut random = Random::new("random packages");
    let mut seen = BTreeMap::new();
    for _ in 0..1000 {
        let capacity = random.pick(&[100, 600, 3000]);
        let mut buffer = buffer(capacity);
        let package = Package::start(&mut buffer, capacity as u64).expect("room");
        assert_eq!(package.as_bytes().len(), capacity + OVERHEAD);
        let held = filled(&mut random, package);
        for name in NAMES.into_iter().chain(OTHERS) {
            let asked = random.flip_case(name);
            let answer = held.check(package.as_bytes(), &asked);
            *seen.entry(answer).or_insert(0) += 1;
        }
    }
    println!("random packages: by kind, or by refusal: {seen:?}");
    assert!(seen.keys().eq(&[Ok(0), Ok(1), Ok(2), Err(4), Err(13)]));
}
