//! At the end of a list: everything that can be asked about what is held.

use crate::list::List;
use crate::pair::Pair;
use crate::support::calls::Call;
use crate::support::Random;
use crate::texts::BASES;
use std::collections::BTreeSet;
use zombirels::package::CAPACITY_MAX;
use zombirels::script::Code;

impl Pair<'_> {
    /// Asks for each item, each part at each position, its type and what this
    /// comes from, what each relationship leads to, the streams, the totals,
    /// with outputs of each length. Then drops the types and relationships, one
    /// by one.
    pub fn sweep(&mut self, random: &mut Random, list: &List) {
        let items = self.ledger.items().map(|(name, _)| name.to_vec());
        let names: BTreeSet<Vec<u8>> = items.chain(list.held.iter().cloned()).collect();
        for name in names {
            self.ask(random, Code::FindItem, &[&name], 0).ok();
            self.ask(random, Code::ViewItem, &[&name], 0).ok();
        }
        self.sweep_parts(random);
        self.sweep_relationships(random, list);
        self.sweep_streams(random, list);
        self.sweep_drops(random, list);
    }

    fn totals(&mut self, random: &mut Random) -> [usize; 3] {
        let totals = self.ask(random, Code::Totals, &[], 0);
        totals.expect("a package")
    }

    /// Each part at each position, and one of them with outputs of each length.
    fn sweep_parts(&mut self, random: &mut Random) {
        let [_, parts, _] = self.totals(random);
        let chosen = random.below(parts.max(1));
        for position in 0..=parts {
            let mut out = [0; 255];
            let call = Call::new(Code::PartAt, &[])
                .with_number(position as u64)
                .with_output(out.len());
            let Ok([length, ..]) = self.compare(random, &call) else {
                assert_eq!(position, parts);
                break;
            };
            let named = self.ledger.part_at(position as u64, &mut out);
            named.expect("a part");
            let name = &out[..length];
            let asked = random.flip_case(name);
            let read = self.ask(random, Code::ReadPart, &[&asked], 5000);
            let content = read.expect("a part")[0];
            let asked = random.flip_case(name);
            let media_type = self.ask(random, Code::MediaType, &[&asked], 127);
            let media_type = media_type.map_or(0, |[length, ..]| length);
            let asked = random.flip_case(name);
            let origin = self.ask(random, Code::TypeOrigin, &[&asked], 255);
            let [_, key, _] = origin.expect("a part");
            if position == chosen {
                let lengths = [content, media_type, key];
                self.sweep_outputs(random, position as u64, name, lengths);
            }
        }
    }

    /// A part with outputs of each length; those of its content, its media
    /// type and the key that this comes from are told.
    fn sweep_outputs(
        &mut self,
        random: &mut Random,
        position: u64,
        name: &[u8],
        [content, media_type, key]: [usize; 3],
    ) {
        for length in 0..=name.len() + 2 {
            let call = Call::new(Code::PartAt, &[])
                .with_number(position)
                .with_output(length);
            self.compare(random, &call).ok();
        }
        for length in 0..=(content + 2).min(300) {
            let offset = random.below(content + 2) as u64;
            let offset = random.pick(&[0, offset]);
            let call = Call::new(Code::ReadPart, &[name])
                .with_number(offset)
                .with_output(length);
            self.compare(random, &call).expect("a part");
        }
        for length in 0..=media_type + 2 {
            self.ask(random, Code::MediaType, &[name], length).ok();
        }
        for length in 0..=key + 2 {
            let answer = self.ask(random, Code::TypeOrigin, &[name], length);
            assert_eq!(answer.is_ok(), length >= key);
        }
    }

    /// Resolves each relationship, and one of them to outputs of each length.
    fn sweep_relationships(&mut self, random: &mut Random, list: &List) {
        let keys: BTreeSet<_> = list.relationships.iter().collect();
        let chosen = random.below(keys.len().max(1));
        for (i, (source, id)) in keys.into_iter().enumerate() {
            let base = random.pick(BASES);
            let asked = random.flip_case(source);
            let code = Code::ResolveRelationship;
            let answer = self.ask(random, code, &[&asked, id, base], 1027);
            if let (Ok([length, ..]), true) = (answer, i == chosen) {
                for short in 0..=length + 2 {
                    self.ask(random, code, &[source, id, base], short).ok();
                }
            }
        }
    }

    /// Writes both streams, into outputs about as long as they need.
    fn sweep_streams(&mut self, random: &mut Random, list: &List) {
        let sources: BTreeSet<&Vec<u8>> = list.relationships.iter().map(|(s, _)| s).collect();
        let sources = sources.into_iter().take(8).map(|s| random.flip_case(s));
        let sources: Vec<Vec<u8>> = sources.collect();
        for source in &sources {
            self.sweep_stream(random, Code::WriteRelationships, &[source]);
        }
        self.sweep_stream(random, Code::WriteTypes, &[]);
    }

    fn sweep_stream(&mut self, random: &mut Random, code: Code, texts: &[&[u8]]) {
        let Err((3, needed)) = self.ask(random, code, texts, 0) else {
            panic!("no output");
        };
        for length in [1, needed - 1, needed, needed + 1, needed + 300] {
            let answer = self.ask(random, code, texts, length);
            assert_eq!(answer.is_ok(), length >= needed);
        }
    }

    fn sweep_drops(&mut self, random: &mut Random, list: &List) {
        for extension in list.extensions.iter().collect::<BTreeSet<_>>() {
            let asked = random.flip_case(extension);
            self.ask(random, Code::DropDefault, &[&asked], 0).ok();
        }
        self.totals(random);
        for name in list.overrides.iter().collect::<BTreeSet<_>>() {
            let asked = random.flip_case(name);
            self.ask(random, Code::DropOverride, &[&asked], 0).ok();
        }
        self.totals(random);
        for (source, id) in list.relationships.iter().collect::<BTreeSet<_>>() {
            let asked = random.flip_case(source);
            self.ask(random, Code::DropRelationship, &[&asked, id], 0)
                .ok();
        }
        self.totals(random);
    }

    /// Starts with more than the buffer or the limit allows, then with as much.
    pub fn sweep_starts(&mut self, random: &mut Random, lent: u64) {
        let start = |capacity| Call::new(Code::Start, &[]).with_number(capacity);
        for capacity in [lent + 1, CAPACITY_MAX + 1] {
            let answer = self.compare(random, &start(capacity));
            assert_eq!(answer, Err((2, 0)));
        }
        let answer = self.compare(random, &start(lent.min(CAPACITY_MAX)));
        assert_eq!(answer, Ok([0; 3]));
        assert_eq!(self.totals(random), [0; 3]);
    }
}
