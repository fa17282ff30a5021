//! The same texts in all four sets: a search does not leave its set.

use crate::set::{Set, SETS};
use crate::support::calls::Call;
use crate::support::Random;
use crate::{buffer, put, spellings, turned, Pair};
use zombirels::package::OVERRIDES_MAX;
use zombirels::script::Code;

/// As many texts as the smallest set takes, some the beginnings of others.
fn texts() -> Vec<Vec<u8>> {
    let stems = [
        "a",
        "Ab",
        "aB-c",
        "abc",
        "b",
        "B0",
        "long-Long-long-Long-lon",
        "z",
    ];
    let ends = ["", "-", "0", "@", "a", "Z", "zz", "~"];
    let text = |stem: &str, end: &str| format!("/{stem}{end}").into_bytes();
    let texts = stems
        .iter()
        .flat_map(|stem| ends.map(|end| text(stem, end)));
    let mut texts: Vec<Vec<u8>> = texts.collect();
    texts.sort_by_key(|text| text.to_ascii_lowercase());
    texts.dedup_by_key(|text| text.to_ascii_lowercase());
    assert!(texts.len() <= OVERRIDES_MAX && texts.len() > 55);
    texts
}

/// What each set holds of the texts.
struct Held {
    texts: Vec<Vec<u8>>,
    holds: [Vec<bool>; 4],
}

impl Held {
    fn new(texts: Vec<Vec<u8>>) -> Held {
        let holds = [(); 4].map(|()| vec![false; texts.len()]);
        Held { texts, holds }
    }

    /// Asks for each text in each set, in any spelling.
    fn check(&self, pair: &mut Pair, random: &mut Random) {
        for (i, text) in self.texts.iter().enumerate() {
            let text = random.flip_case(text);
            for (set, holds) in SETS.iter().zip(&self.holds) {
                let number = match (set, holds[i]) {
                    // its type is asked for, so there must be such a part
                    (Set::Overrides, _) if !self.holds[0][i] => 13,
                    (_, true) => 0,
                    (_, false) => set.missing(),
                };
                let asks = set.asks(&text);
                pair.expect(&asks[0], number);
                for ask in &asks[1..] {
                    pair.number(ask);
                }
            }
        }
    }

    /// Drops a text from one set, or puts it, in any spelling.
    fn change(&mut self, pair: &mut Pair, random: &mut Random, set: usize, i: usize) {
        let text = random.flip_case(&self.texts[i]);
        let (put, dropped) = (SETS[set].put(&text), SETS[set].drop(&turned(&text)));
        if self.holds[set][i] {
            pair.expect(&put, 10);
            pair.expect(&dropped, 0);
            pair.expect(&dropped, 13);
        } else {
            pair.expect(&dropped, 13);
            pair.expect(&put, 0);
            pair.expect(&put, 10);
        }
        self.holds[set][i] = !self.holds[set][i];
    }
}

/// A package that holds a part with each text as its extension.
fn started(buffer: &mut [u8], texts: Vec<Vec<u8>>) -> (Pair<'_>, Held) {
    let mut pair = Pair::start(buffer);
    for text in &texts {
        let part = Set::Defaults.part(text).expect("a part");
        pair.expect(&put(&part), 0);
    }
    (pair, Held::new(texts))
}

/// The texts are put in one set after the other, then dropped again; what the
/// others hold stays.
#[test]
fn one_after_the_other() {
    let mut random = Random::new("one after the other");
    let mut buffer = buffer(40_000);
    let (mut pair, mut held) = started(&mut buffer, texts());
    for set in [2, 0, 3, 1, 1, 3, 0, 2] {
        for i in 0..held.texts.len() {
            held.change(&mut pair, &mut random, set, i);
        }
        held.check(&mut pair, &mut random);
    }
}

/// Any text is put in any set or dropped from it.
#[test]
fn at_random() {
    let mut random = Random::new("at random");
    let mut buffer = buffer(40_000);
    let (mut pair, mut held) = started(&mut buffer, texts());
    for _ in 0..60 {
        for _ in 0..30 {
            let (set, i) = (random.below(4), random.below(held.texts.len()));
            held.change(&mut pair, &mut random, set, i);
        }
        held.check(&mut pair, &mut random);
        let types = Call::new(Code::WriteTypes, &[]).with_output(20_000);
        pair.expect(&types, 0);
    }
}

/// The first and the last text of each set, with none or all in the others.
#[test]
fn at_the_ends() {
    let ends: [&[u8]; 4] = [b"/!", b"/A", b"/z", b"/~~"];
    for alone in SETS {
        for others in [false, true] {
            let mut buffer = buffer(10_000);
            let mut pair = Pair::start(&mut buffer);
            for set in SETS.into_iter().filter(|set| others && *set != alone) {
                for text in ends {
                    pair.expect(&set.put(text), 0);
                }
            }
            for text in ends.iter().flat_map(|text| spellings(text)) {
                pair.expect(&alone.drop(&text), 13);
                pair.expect(&alone.put(&text), 0);
                pair.expect(&alone.put(&turned(&text)), 10);
                pair.expect(&alone.drop(&turned(&text)), 0);
            }
        }
    }
}
