//! Random type origins, by themselves and with calls planned around them.

use crate::list::{List, Style};
use crate::support::calls::{Answer, Call};
use crate::support::Random;
use crate::texts::{filled, random_length};
use reference::ledger::Ledger;
use reference::names::{extension, is_equivalent, take_apart};
use zombirels::script::Code;

const FOLDERS: &[&[u8]] = &[b"", b"", b"/T", b"/t.tiff", b"/x.y/z"];

/// Last segments: extensions of 31 bytes and of one more, of several dots, of
/// a dot at the start, and none.
#[rustfmt::skip]
const LAST: &[&[u8]] = &[
    b"a.tiff", b"b.TIFF", b"c.Xml", b"d", b"tiff", b"e.xml.y", b"e.y.xml", b".rels", b"R&D.&", b"f.%20", b"\xC3\xA9.\xC3\xA9",
    b"g.abcdefghijklmnopqrstuvwxyz-1234", b"h.abcdefghijklmnopqrstuvwxyz-12345",
];

/// A part name, most often with an extension that a Default may have.
pub fn typed_name(random: &mut Random) -> Vec<u8> {
    if random.once_in(10) {
        // up to 256 bytes, one too long
        let stem = filled(b"/long", b'n', 245 + random.below(7));
        return [&stem[..], random.pick(&[b".tiff", b"-tiff"])].concat();
    }
    [random.pick(FOLDERS), b"/", random.pick(LAST)].concat()
}

impl List {
    /// The extension of one of the names, in any case.
    pub fn extension_of_a_part(&self, random: &mut Random) -> Vec<u8> {
        let which = random.below(self.prefixes.len());
        let extension = extension(&self.prefixes[which]).unwrap_or(b"tiff");
        random.flip_case(extension)
    }

    /// A type origin, or the first of calls that are planned around some.
    pub fn origin_call(&mut self, random: &mut Random, ledger: &Ledger) -> Call {
        let parts: Vec<&[u8]> = ledger.parts().map(|part| part.name).collect();
        let name = match parts.is_empty() || random.once_in(6) {
            true => self.part_name(random),
            false => {
                let name = random.pick(&parts);
                random.flip_case(name)
            }
        };
        if self.style == Style::Origins && random.once_in(5) {
            self.planned.extend(argued(random, ledger, &name));
            return self.planned.pop_front().expect("a call");
        }
        let lent = random_lent(random, ledger, &name);
        Call::new(Code::TypeOrigin, &[&name]).with_output(lent)
    }
}

/// The kind of the entry that a part's type comes from, and its key.
fn entry(ledger: &Ledger, name: &[u8]) -> (u64, Vec<u8>) {
    let mut out = [0; 255];
    let origin = ledger.type_origin(name, &mut out);
    origin.map_or((0, Vec::new()), |origin| {
        (origin.kind, out[..origin.length].to_vec())
    })
}

/// How many bytes a type origin is lent: those of the key, one more or less,
/// none, as many as always suffice, or any.
fn random_lent(random: &mut Random, ledger: &Ledger, name: &[u8]) -> usize {
    let key = entry(ledger, name).1.len();
    let any = random_length(random);
    random.pick(&[key, key + 1, key.saturating_sub(1), 0, 255, 255, any])
}

/// What a type comes from, before and after the entry is dropped, and when it
/// is put again in another spelling. If there is none, a Default is put and
/// then an Override.
fn argued(random: &mut Random, ledger: &Ledger, name: &[u8]) -> Vec<Call> {
    let (kind, key) = entry(ledger, name);
    let [dropped, again] = [(); 2].map(|()| random.flip_case(&key));
    let named = random.flip_case(name);
    let extended = random.flip_case(extension(name).unwrap_or(b"x"));
    let media_type = random.pick(&[&b"a/b"[..], b"image/tiff;page=2"]);
    let (first, second) = match kind {
        2 => (
            Call::new(Code::DropOverride, &[&dropped]),
            Call::new(Code::PutOverride, &[&again, media_type]),
        ),
        1 => (
            Call::new(Code::DropDefault, &[&dropped]),
            Call::new(Code::PutDefault, &[&again, media_type]),
        ),
        _ => (
            Call::new(Code::PutDefault, &[&extended, b"c/d"]),
            Call::new(Code::PutOverride, &[&named, media_type]),
        ),
    };
    let mut calls = asked(random, name);
    calls.push(first);
    calls.extend(asked(random, name));
    calls.push(second);
    calls.extend(asked(random, name));
    calls
}

/// What a part's type comes from, the type, and the first again with less
/// output.
fn asked(random: &mut Random, name: &[u8]) -> Vec<Call> {
    let short = random.below(12);
    [
        (Code::TypeOrigin, 255),
        (Code::MediaType, 127),
        (Code::TypeOrigin, short),
    ]
    .map(|(code, lent)| Call::new(code, &[&random.flip_case(name)]).with_output(lent))
    .into()
}

/// What lists of type origins must show, as [`kinds`] tells it.
pub const KINDS: [&str; 16] = [
    "Override before Default",
    "Override alone",
    "Override in another spelling",
    "Override of 255 bytes",
    "Default",
    "Default in another spelling",
    "Default of 31 bytes",
    "of a part in pieces",
    "just the key",
    "a byte short",
    "a key but no output",
    "neither, no extension",
    "neither, an extension",
    "neither, no output",
    "Override of no part",
    "Override of no part yet",
];

/// What is remarkable about a type origin of that ledger.
pub fn kinds(call: &Call, answer: Answer, ledger: &Ledger) -> Vec<&'static str> {
    let (name, lent) = (&call.texts[0][..], call.lent);
    let kinds = match answer {
        Ok([0, ..]) => vec![
            ("neither, no extension", extension(name).is_none()),
            ("neither, an extension", extension(name).is_some()),
            ("neither, no output", lent == 0),
        ],
        Ok([_, length, _]) => kinds_of_a_key(name, length, lent, ledger),
        Err((3, needed)) => vec![
            ("a byte short", lent + 1 == needed),
            ("a key but no output", lent == 0),
        ],
        Err((13, _)) => {
            let in_group = |item| take_apart(item).is_ok_and(|i| is_equivalent(i.prefix, name));
            let begun = ledger.items().any(|(item, _)| in_group(item));
            let named = ledger.overrides().any(|(key, _)| is_equivalent(key, name));
            vec![
                ("Override of no part", named && !begun),
                ("Override of no part yet", named && begun),
            ]
        }
        Err(_) => Vec::new(),
    };
    let kinds = kinds.into_iter().filter(|(_, is_so)| *is_so);
    kinds.map(|(kind, _)| kind).collect()
}

/// What is remarkable about a key of that length, as far as it is so.
fn kinds_of_a_key(
    name: &[u8],
    length: usize,
    lent: usize,
    ledger: &Ledger,
) -> Vec<(&'static str, bool)> {
    let asked = extension(name);
    let same = |key: &[u8], asked: Option<&[u8]>| asked.is_some_and(|a| is_equivalent(key, a));
    let extended = ledger.defaults().find(|(key, _)| same(key, asked));
    let mut kinds = vec![
        ("of a part in pieces", ledger.find_item(name).is_err()),
        ("just the key", lent == length),
    ];
    match ledger.overrides().find(|(key, _)| is_equivalent(key, name)) {
        Some((key, _)) => kinds.extend([
            ("Override before Default", extended.is_some()),
            ("Override alone", extended.is_none()),
            ("Override in another spelling", key != name),
            ("Override of 255 bytes", length == 255),
        ]),
        None => kinds.extend([
            ("Default", true),
            (
                "Default in another spelling",
                extended.map(|(key, _)| key) != asked,
            ),
            ("Default of 31 bytes", length == 31),
        ]),
    }
    kinds
}
