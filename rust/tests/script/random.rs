//! Random calls of a script, and what goes with them.

use crate::bytes::{output_of, reply_at};
use crate::pair::Pair;
use crate::support::calls::Call;
use crate::support::types::near_media_type;
use crate::support::{streams, Random};
use reference::ledger::Ledger;
use zombirels::package::{CAPACITY_MAX, OVERHEAD};
use zombirels::script::{Code, REPLY_SIZE};

/// The longest output that a random call could fill.
pub const LONG: usize = 1 << 15;

#[rustfmt::skip]
pub const NAMES: &[&[u8]] = &[
    b"/a", b"/A", b"/b.tiff", b"/B.TIFF", b"/c/d.xml", b"/c/d.xml/e", b"/p/[0].piece", b"/P/[1].last.piece", b"/p/[1].piece", b"/p", b"/q",
    b"/q/[0].last.piece", b"/R&D.&", b"/c/d.XML", b"/t1", b"/t2", b"/t3",
];

#[rustfmt::skip]
pub const ODD_NAMES: &[&[u8]] = &[b"", b"/", b"a", b"/a/", b"/_rels/.rels", b"/x/[01].piece", b"/p/[", b"/\xC3"];

/// Few names, so that types come from entries of each kind.
const TYPED: &[&[u8]] = &[b"/b.tiff", b"/B.TIFF", b"/t1"];

pub const SOURCES: &[&[u8]] = &[b"/", b"/a", b"/b.tiff", b"/C/d.xml", b"/_rels/.rels", b"a"];
pub const EXTENSIONS: &[&[u8]] = &[b"tiff", b"TIFF", b"xml", b"&", b"a.b", b""];
pub const IDS: &[&[u8]] = &[b"r1", b"r2", b"R1", b"1"];
pub const KINDS: &[&[u8]] = &[b"a:mask", b"http://h/k?a&b", b"a"];
pub const TARGETS: &[&[u8]] = &[b"b.tiff", b"/a", b"../p", b"c:d#e", b"_rels/.rels", b""];
pub const BASES: &[&[u8]] = &[b"http://h/p.opc", b"a:,,#f", b"a"];

pub fn name(random: &mut Random) -> Vec<u8> {
    match random.below(12) {
        0 => random.pick(ODD_NAMES).to_vec(),
        1..=4 => {
            let name = random.pick(NAMES);
            random.flip_case(name)
        }
        _ => random.pick(NAMES).to_vec(),
    }
}

/// One of the first two texts most often, which are well-formed, or any.
pub fn text(random: &mut Random, texts: &[&[u8]]) -> Vec<u8> {
    let from = if random.once_in(5) {
        texts
    } else {
        &texts[..2]
    };
    random.pick(from).to_vec()
}

/// A call with the fields that it takes; the others are filled as well, at
/// times. It is lent nothing yet.
pub fn random_call(random: &mut Random, lent: u64) -> Call {
    let code = match random.below(3) {
        0 => random.pick(&[Code::PutItem, Code::PutItem, Code::PutRelationship]),
        _ => match random.pick(&Code::ALL) {
            Code::Start if !random.once_in(6) => Code::PutDefault,
            code => code,
        },
    };
    let size = random.pick(&[0, 3, 20, 20, 200, 1500]);
    let other = random.bytes(size);
    let (extension, media_type) = (text(random, EXTENSIONS), near_media_type(random));
    let (source, id) = (text(random, SOURCES), text(random, IDS));
    let (kind, target) = (text(random, KINDS), text(random, TARGETS));
    let base = text(random, BASES);
    let name = match code {
        Code::PutOverride | Code::MediaType | Code::TypeOrigin if random.once_in(2) => {
            random.pick(TYPED).to_vec()
        }
        _ => name(random),
    };
    let (a, b, c, d) = match code {
        Code::PutItem => (name, other, vec![], vec![]),
        Code::PutDefault | Code::DropDefault => (extension, media_type, vec![], vec![]),
        Code::PutOverride => (name, media_type, vec![], vec![]),
        Code::PutRelationship => (source, id, kind, target),
        Code::DropRelationship | Code::ResolveRelationship => (source, id, base, vec![]),
        Code::WriteRelationships => (source, vec![], vec![], vec![]),
        Code::ReadTypes => (streams::types(random, 8), vec![], vec![], vec![]),
        Code::ReadRelationships => {
            let stream = streams::relationships(random, 8);
            (source, stream, vec![], vec![])
        }
        Code::Start | Code::PartAt | Code::Totals | Code::WriteTypes => {
            (vec![], vec![], vec![], vec![])
        }
        _ => (name, vec![], vec![], vec![]),
    };
    let mut texts = [a, b, c, d];
    let taken = taken_texts(code);
    for text in &mut texts[taken..] {
        let length = random.pick(&[0, 0, 1, 9]);
        *text = random.bytes(length);
    }
    let number = number(random, code, lent);
    Call {
        code,
        lent: 0,
        texts,
        number,
    }
}

/// The number of a call; the buffer takes a capacity of `lent`.
fn number(random: &mut Random, code: Code, lent: u64) -> u64 {
    let any = random.next();
    match code {
        Code::Start => random.pick(&[lent, lent, lent / 2, lent + 1, CAPACITY_MAX + 1, any]),
        Code::PutRelationship if random.once_in(16) => random.pick(&[2, 1 << 32, any]),
        Code::PutRelationship => any % 2,
        Code::ReadPart => random.pick(&[0, 0, 1, 5, 1 << 32, u64::MAX]),
        Code::PartAt => random.pick(&[0, 1, 2, 3, 1 << 32, u64::MAX]),
        Code::CutPart => random.pick(&[0, 1, 2, 3, 5, 11, 21, 200, 256, 257, (1 << 32) + 2, any]),
        _ => random.pick(&[0, any]),
    }
}

/// How many of its texts a call takes.
pub fn taken_texts(code: Code) -> usize {
    match code {
        Code::Start | Code::PartAt | Code::Totals | Code::WriteTypes => 0,
        Code::PutItem | Code::PutDefault | Code::PutOverride | Code::DropRelationship => 2,
        Code::ReadRelationships => 2,
        Code::ResolveRelationship => 3,
        Code::PutRelationship => 4,
        _ => 1,
    }
}

/// Random calls for the package of a pair. They are made on a ledger of their
/// own, to lend some of them just what they need.
pub fn random_calls(random: &mut Random, pair: &Pair, capacity: u64) -> Vec<Call> {
    let mut shadow = Ledger::default();
    let lent = pair.length() - OVERHEAD as u64;
    shadow.start(pair.length(), capacity).expect("room");
    let mut out = vec![0; REPLY_SIZE + LONG];
    let count = random.below(61);
    let mut calls = Vec::new();
    for _ in 0..count {
        let mut call = random_call(random, lent);
        call.lent = LONG;
        reference::script::run(&mut shadow, pair.length(), &call.bytes(), &mut out);
        let [_, _, first, second, _] = reply_at(&out).map(|field| field as usize);
        let exact = match call.code {
            Code::TypeOrigin => second,
            _ => first,
        };
        let some = random.below(400);
        let lengths = [
            0,
            0,
            1,
            exact,
            exact,
            exact + 1,
            exact.saturating_sub(1),
            some,
        ];
        call.lent = random.pick(&lengths).min(4000);
        calls.push(call);
    }
    calls
}

/// The length of an output for these calls: enough, more, or such that the run
/// is cut at the end of an answer or beside it.
pub fn random_length(random: &mut Random, calls: &[Call]) -> usize {
    let full = output_of(calls);
    let some = random.below(100);
    let cut = output_of(&calls[..random.below(calls.len() + 1)]);
    let inside = random.below(full + 1);
    random.pick(&[
        full,
        full,
        full + some,
        full + REPLY_SIZE,
        cut,
        cut + 1,
        cut.saturating_sub(1),
        inside,
    ])
}

/// What may stand behind the calls of a script: nothing, most often, or what
/// is no call.
pub fn random_tail(random: &mut Random) -> Vec<u8> {
    let whole = random_call(random, 100).bytes();
    match random.below(8) {
        0 => whole[..random.below(whole.len())].to_vec(),
        1 => {
            let code = random.pick(&[0, 24, 255, 256 + 2, 1 << 24, u32::MAX]);
            let mut bytes = whole;
            bytes[..4].copy_from_slice(&code.to_le_bytes());
            bytes
        }
        2 => {
            let count = random.below(80);
            random.bytes(count)
        }
        _ => Vec::new(),
    }
}
