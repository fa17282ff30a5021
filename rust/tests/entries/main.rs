//! Entries by their positions: examples and refusals by hand, sets that are
//! full, and sets that change.

mod changes;
mod examples;
mod full;
mod lengths;
mod refusals;
#[path = "../support/mod.rs"]
mod support;

use support::entries::{told, Ask};
use support::outputs::GUARD;
use zombirels::package::{Package, OVERHEAD};

/// The field and how many entries the set has, or the number of the refusal and
/// the length that it carries.
type Answer = Result<(Vec<u8>, usize), (u64, usize)>;

/// The sets, and how many fields their entries have.
const ITEMS: u64 = 0;
const DEFAULTS: u64 = 1;
const OVERRIDES: u64 = 2;
const RELATIONSHIPS: u64 = 3;
const WIDTHS: [u64; 4] = [2, 2, 2, 5];

/// A buffer for a package of that capacity, without a byte to spare.
fn buffer(capacity: usize) -> Box<[u8]> {
    vec![0xA5; capacity + OVERHEAD].into_boxed_slice()
}

/// What the archive answers of any bytes. These are kept, and so are all bytes
/// of the output but the field's, and those beside it.
fn asked(package: &[u8], ask: Ask) -> Answer {
    let before = package.to_vec();
    let mut out = vec![b'.'; ask.lent + 2 * GUARD];
    let reply = ask.reply(package, &mut out[GUARD..][..ask.lent]);
    assert!(package == before, "{ask:?} changed the package");
    let answer = told(&reply);
    let length = answer.map_or(0, |[length, _]| length);
    assert!(length <= ask.lent, "{ask:?}: {reply:?}");
    let (start, rest) = out.split_at(GUARD);
    let (field, behind) = rest.split_at(length);
    let kept = start.iter().chain(behind).all(|&byte| byte == b'.');
    assert!(kept, "{ask:?} changed more than the field");
    answer.map(|[_, entries]| (field.to_vec(), entries))
}

/// What both the archive and the wrapper answer with an output of so many
/// bytes.
fn entry(package: &Package, set: u64, position: u64, field: u64, lent: usize) -> Answer {
    let ask = Ask {
        set,
        position,
        field,
        lent,
    };
    let answer = asked(package.as_bytes(), ask);
    let mut out = vec![b'.'; lent];
    let wrapped = ask.by_wrapper(package, &mut out);
    let wrapped = wrapped.map(|[length, entries]| (out[..length].to_vec(), entries));
    assert_eq!(wrapped, answer, "{ask:?}");
    answer
}

/// One field of all entries of a set, up to the first position that is none.
fn column(package: &Package, set: u64, field: u64) -> Vec<String> {
    let mut texts = Vec::new();
    let mut counts = Vec::new();
    loop {
        match entry(package, set, texts.len() as u64, field, 300) {
            Ok((bytes, entries)) => {
                texts.push(String::from_utf8(bytes).expect("text"));
                counts.push(entries);
            }
            Err(refusal) => {
                assert_eq!(refusal, (13, 0));
                break;
            }
        }
    }
    assert!(counts.iter().all(|&entries| entries == texts.len()));
    texts
}
