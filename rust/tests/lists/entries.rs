//! Entries asked for by their positions: some in the middle of a list, all of
//! them at its end.

use crate::list::Style;
use crate::pair::Pair;
use crate::support::calls::Call;
use crate::support::entries::{told, Ask, Slate};
use crate::support::Random;
use crate::texts::random_length;
use reference::ledger::{Entries, Ledger};
use std::collections::BTreeMap;
use zombirels::package::{DEFAULTS_MAX, ITEMS_MAX, OVERRIDES_MAX, RELATIONSHIPS_MAX};

/// Numbers that are no set, and far from any position and field.
const ODD_SETS: [u64; 4] = [4, 5, 1 << 32, u64::MAX];
const FAR: [u64; 2] = [1 << 32, u64::MAX];

/// In the middle of a list so many are asked for after one call in so many.
const SOME: usize = 5;
const ONCE_IN: usize = 50;

/// What came so far.
#[derive(Default)]
pub struct SeenEntries {
    /// How often each set met each number; 4 stands for all that are no set.
    numbers: BTreeMap<(u64, u64), usize>,
    /// The most entries that each set had.
    most: [usize; 4],
}

impl SeenEntries {
    pub fn print(&self, test: &str) {
        let asked: usize = self.numbers.values().sum();
        let (numbers, most) = (&self.numbers, &self.most);
        println!("{test}: {asked} entries compared; by set and number: {numbers:?}");
        println!("{test}: most entries of each set: {most:?}");
    }

    /// Each set was asked with each answer, and full where lists fill it.
    pub fn check(&self, style: Style) {
        for set in 0..4 {
            for number in [0, 3, 8, 13] {
                let met = self.numbers.contains_key(&(set, number));
                assert!(met, "set {set} never met {number}");
            }
        }
        let [items, types @ .., relationships] = self.most;
        match style {
            Style::Full => assert_eq!(items, ITEMS_MAX),
            Style::FullFields => {
                assert_eq!(types, [DEFAULTS_MAX, OVERRIDES_MAX]);
                assert_eq!(relationships, RELATIONSHIPS_MAX);
            }
            _ => {}
        }
    }
}

/// Who asks about one package.
struct Asker<'a> {
    package: &'a [u8],
    /// The package's bytes before anything was asked.
    before: Vec<u8>,
    slate: Slate,
    made: &'a [Call],
    seen: &'a mut SeenEntries,
}

impl Asker<'_> {
    /// Asks the archive, and compares answer and output with those entries.
    fn ask(&mut self, entries: Option<&Entries>, ask: Ask) {
        let reply = ask.reply(self.package, self.slate.lend(ask.lent));
        let (answer, (right, written)) = (told(&reply), ask.right(entries));
        let made = self.made;
        let shown = || {
            let calls: Vec<String> = made.iter().map(Call::show).collect();
            format!("{}\n{ask:?}", calls.join("\n"))
        };
        assert!(answer == right, "{}: {answer:?} for {right:?}", shown());
        self.slate.check(ask.lent, written, shown);
        let number = answer.err().map_or(0, |(number, _)| number);
        let met = self.seen.numbers.entry((ask.set.min(4), number));
        *met.or_insert(0) += 1;
    }

    /// Checks that no question changed the package.
    fn check_kept(&self, set: u64) {
        let kept = self.package == self.before;
        assert!(kept, "asking about set {set} changed the package");
    }

    /// A field with an output of just its length, of one byte less, of some
    /// more, and none.
    fn each_length(&mut self, random: &mut Random, entries: &Entries, ask: Ask) {
        let field = entries.at(ask.position, ask.field).expect("an entry");
        let length = field.len();
        let more = length + 1 + random.below(40);
        for lent in [length, length.saturating_sub(1), more, 0] {
            self.ask(Some(entries), Ask { lent, ..ask });
        }
    }

    /// All fields of all entries of a set, and what it doesn't have.
    fn sweep_set(&mut self, random: &mut Random, set: u64, entries: &Entries) {
        let (count, width) = (entries.count() as u64, entries.width() as u64);
        let most = &mut self.seen.most[set as usize];
        *most = entries.count().max(*most);
        let ask = |position, field, lent| Ask {
            set,
            position,
            field,
            lent,
        };
        for position in 0..count {
            for field in 0..width {
                self.each_length(random, entries, ask(position, field, 0));
            }
        }
        let lent = random.pick(&[0, 1, 300]);
        for position in [count, count + 1].into_iter().chain(FAR) {
            for field in 0..width {
                self.ask(Some(entries), ask(position, field, lent));
            }
        }
        for field in [width, width + 1].into_iter().chain(FAR) {
            for position in [0, count, u64::MAX] {
                self.ask(Some(entries), ask(position, field, lent));
            }
        }
    }
}

impl Pair<'_> {
    fn asker(&mut self, random: &mut Random) -> (Asker<'_>, &Ledger) {
        let asker = Asker {
            package: self.package.as_bytes(),
            before: self.package.as_bytes().to_vec(),
            slate: Slate::new(random),
            made: &self.made,
            seen: &mut self.seen.entries,
        };
        (asker, &self.ledger)
    }

    /// Asks for each field of each entry, and past the last ones.
    pub fn sweep_entries(&mut self, random: &mut Random) {
        let (mut asker, ledger) = self.asker(random);
        for set in 0..4 {
            let entries = ledger.entries(set).expect("a set");
            asker.sweep_set(random, set, &entries);
            asker.check_kept(set);
        }
        for set in ODD_SETS {
            assert!(ledger.entries(set).is_err());
            for (position, field) in [(0, 0), (0, u64::MAX), (u64::MAX, 0)] {
                let lent = random.pick(&[0, 300]);
                let ask = Ask {
                    set,
                    position,
                    field,
                    lent,
                };
                asker.ask(None, ask);
            }
            asker.check_kept(set);
        }
    }

    /// Asks for some entries of one set, if it is time.
    pub fn some_entries(&mut self, random: &mut Random) {
        if !random.once_in(ONCE_IN) {
            return;
        }
        let (mut asker, ledger) = self.asker(random);
        let set = match random.below(10) {
            0 => random.pick(&ODD_SETS),
            n => n as u64 % 4,
        };
        let entries = ledger.entries(set).ok();
        let counts = entries.as_ref().map(|set| (set.count(), set.width()));
        let (count, width) = counts.unwrap_or((0, 5));
        for _ in 0..SOME {
            let ask = Ask {
                set,
                position: near(random, count),
                field: near(random, width),
                lent: 0,
            };
            let (_, bytes) = Ask {
                lent: usize::MAX,
                ..ask
            }
            .right(entries.as_ref());
            let length = bytes.len();
            let any = random_length(random);
            let lent = random.pick(&[length, length, length.saturating_sub(1), 0, any]);
            asker.ask(entries.as_ref(), Ask { lent, ..ask });
            asker.check_kept(set);
        }
    }
}

/// A number below `end` most often, or one from there on.
fn near(random: &mut Random, end: usize) -> u64 {
    match random.below(12) {
        0 => random.pick(&FAR),
        1 => (end + random.below(2)) as u64,
        _ => random.below(end.max(1)) as u64,
    }
}
