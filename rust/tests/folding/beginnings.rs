//! Sets of texts that begin alike, up to any length, so that many neighbouring
//! rows have to be told apart far behind their beginnings.

use crate::set::{Set, SETS};
use crate::support::calls::Call;
use crate::support::Random;
use crate::{buffer, put, spellings, turned, Pair};
use std::collections::BTreeSet;
use zombirels::script::Code;

/// Each is the beginning of the next one: `/a`, `/aa`, `/aaa`, and so on.
fn ladder(longest: usize) -> Vec<Vec<u8>> {
    let text = |length| [&b"/"[..], &b"a".repeat(length)].concat();
    (1..longest).map(text).collect()
}

/// Each leaves the same path at another length, by a byte below or above it.
fn forks(longest: usize) -> Vec<Vec<u8>> {
    let path = b"Tile-of-Ovary-17z".repeat(longest / 17 + 1);
    let text = |length: usize| {
        let end = if length % 2 == 0 { b'!' } else { b'~' };
        [b"/", &path[..length], &[end]].concat()
    };
    (0..longest - 1).map(text).collect()
}

/// 2, 4, 8 and so on of them begin alike, the later the more: a letter here
/// and there is one of two.
fn halves(longest: usize, most: usize) -> Vec<Vec<u8>> {
    let levels = most.ilog2() as usize;
    let alike = vec![b'k'; (longest - 1) / levels - 1];
    let text = |number: usize| {
        let level = |level: usize| {
            let letter = if number >> level & 1 == 0 { b'm' } else { b'n' };
            [&alike[..], &[letter]].concat()
        };
        let levels = (0..levels).rev().flat_map(level);
        [b'/'].into_iter().chain(levels).collect()
    };
    (0..most).map(text).collect()
}

/// Each begins as one of those before it does, up to anywhere.
fn grown(random: &mut Random, longest: usize, most: usize) -> Vec<Vec<u8>> {
    let mut all = vec![b"/a".to_vec()];
    let mut folded = BTreeSet::from([b"/a".to_vec()]);
    while all.len() < most {
        let from = &all[random.below(all.len())];
        let mut text = from[..1 + random.below(from.len())].to_vec();
        for _ in 0..random.pick(&[1, 1, 1, 2, 3, 9, 40]) {
            text.push(random.pick(b"aAbBzZ-@~!0"));
        }
        text.truncate(longest);
        if folded.insert(text.to_ascii_lowercase()) {
            all.push(text);
        }
    }
    all
}

/// Texts close to one: shorter, longer, and with another byte, well-formed or
/// not.
fn near(random: &mut Random, text: &[u8], longest: usize) -> Vec<Vec<u8>> {
    let mut texts = vec![text[..1 + random.below(text.len())].to_vec()];
    texts.push(text[..text.len() - 1].to_vec());
    for end in [b'!', b'-', b'0', b'A', b'z', b'~'] {
        let mut longer = text.to_vec();
        longer.push(end);
        texts.push(longer);
        let mut other = text.to_vec();
        let at = 1 + random.below(text.len() - 1);
        other[at] = end;
        texts.push(other.clone());
        other.truncate(at + 1);
        texts.push(other);
    }
    for step in [1, 255] {
        let mut next = text.to_vec();
        let last = text.len() - 1;
        next[last] = text[last].wrapping_add(step);
        texts.push(next);
    }
    texts.retain(|text| (2..=longest).contains(&text.len()));
    texts
        .into_iter()
        .map(|text| random.flip_case(&text))
        .collect()
}

/// A set that holds some texts, with the parts whose types these tell.
struct Held<'a> {
    set: Set,
    pair: Pair<'a>,
}

impl Held<'_> {
    /// What is held is found in every spelling, and refused by 10.
    fn ask(&mut self, text: &[u8]) {
        for asked in spellings(text) {
            self.pair.expect(&self.set.put(&asked), 10);
            self.pair.expect(&self.set.asks(&asked)[0], 0);
            for call in self.set.asks(&asked) {
                self.pair.number(&call);
            }
        }
    }

    /// Asks for another text, puts it if it isn't held, and drops it again.
    fn try_near(&mut self, text: &[u8]) {
        let (set, pair) = (self.set, &mut self.pair);
        for call in set.asks(text) {
            pair.number(&call);
        }
        let put = pair.number(&set.put(text));
        if put == 0 {
            pair.expect(&set.drop(&turned(text)), 0);
        }
        if put != 10 {
            let number = pair.number(&set.drop(text));
            assert_ne!(number, 0, "not held");
        }
    }

    fn missing(&mut self, text: &[u8]) {
        let set = self.set;
        self.pair.expect(&set.drop(text), 13);
        self.pair.expect(&set.asks(text)[0], set.missing());
    }
}

/// Puts the texts in any order, asks for them and for others, drops every
/// other one, asks again, and drops the rest.
fn exercise(random: &mut Random, set: Set, mut texts: Vec<Vec<u8>>) {
    for i in (1..texts.len()).rev() {
        texts.swap(i, random.below(i + 1));
    }
    texts.truncate(set.most());
    let bytes: usize = texts.iter().map(Vec::len).sum();
    let mut buffer = buffer(3 * bytes + 20_000);
    let pair = Pair::start(&mut buffer);
    let mut held = Held { set, pair };
    for text in &texts {
        if let Some(part) = set.part(text) {
            held.pair.expect(&put(&part), 0);
        }
        held.pair.expect(&set.put(&random.flip_case(text)), 0);
    }
    held.pair.check_parts();
    for text in &texts {
        held.ask(text);
        for near in near(random, text, set.longest()) {
            held.try_near(&near);
        }
    }
    // before the first and behind the last
    for text in [&b"/!"[..], b"/!!", b"/~~~~", b"/\xF3\xA1\x80\x80"] {
        held.try_near(text);
    }
    for (i, text) in texts.iter().enumerate() {
        if i % 2 == 0 {
            held.pair.expect(&set.drop(&turned(text)), 0);
        }
    }
    for (i, text) in texts.iter().enumerate() {
        match i % 2 {
            0 => held.missing(&random.flip_case(text)),
            _ => held.ask(text),
        }
    }
    for text in texts.iter().skip(1).step_by(2) {
        held.pair.expect(&set.drop(&random.flip_case(text)), 0);
        held.missing(text);
    }
    let types = Call::new(Code::WriteTypes, &[]).with_output(1000);
    held.pair.expect(&types, 0);
}

#[test]
fn ladders() {
    let mut random = Random::new("ladders");
    for set in SETS {
        exercise(&mut random, set, ladder(set.longest()));
    }
}

#[test]
fn forked_paths() {
    let mut random = Random::new("forked paths");
    for set in SETS {
        exercise(&mut random, set, forks(set.longest()));
    }
}

#[test]
fn halved() {
    let mut random = Random::new("halved");
    for set in SETS {
        exercise(&mut random, set, halves(set.longest(), set.most()));
    }
}

#[test]
fn grown_at_random() {
    let mut random = Random::new("grown at random");
    for _ in 0..5 {
        for set in SETS {
            let texts = grown(&mut random, set.longest(), set.most());
            exercise(&mut random, set, texts);
        }
    }
}

/// The same, and few of them, so that every search ends beside each row.
#[test]
fn few() {
    let mut random = Random::new("few");
    for _ in 0..40 {
        for set in SETS {
            let most = 1 + random.below(9);
            let texts = grown(&mut random, set.longest(), most);
            exercise(&mut random, set, texts);
        }
    }
}
