//! One package on both sides: each call is made twice and compared.

use crate::cuts::Before;
use crate::entries::SeenEntries;
use crate::origins;
use crate::readings::Reading;
use crate::support::calls::{Answer, Call};
use crate::support::outputs::Outputs;
use crate::support::Random;
use reference::ledger::Ledger;
use std::collections::{BTreeMap, BTreeSet};
use zombirels::package::Package;
use zombirels::script::Code;

/// What came so far.
#[derive(Default)]
pub struct Seen {
    /// How often each call met each number; 0 if it was accepted.
    pub numbers: BTreeMap<(Code, u64), usize>,
    /// The same of the calls that put or write a type with parameters.
    pub parameters: BTreeMap<(Code, u64), usize>,
    /// What was remarkable about cuts, joins, type origins and readings.
    pub kinds: BTreeMap<&'static str, usize>,
    /// The modes of resolved targets, and whether their parts were held.
    pub resolved: BTreeSet<(usize, usize)>,
    /// What came of entries that were asked for by their positions.
    pub entries: SeenEntries,
}

impl Seen {
    fn add(&mut self, call: &Call, answer: Answer, out: &[u8]) {
        let code = call.code;
        let number = answer.err().map_or(0, |(number, _)| number);
        *self.numbers.entry((code, number)).or_insert(0) += 1;
        if has_parameters(call, answer, out) {
            *self.parameters.entry((code, number)).or_insert(0) += 1;
        }
        if let (Code::ResolveRelationship, Ok([_, mode, held])) = (code, answer) {
            self.resolved.insert((mode, held));
        }
    }
}

/// Whether a call puts a media type with parameters, or wrote one; to a stream
/// one with a value that begins with `&`.
fn has_parameters(call: &Call, answer: Answer, out: &[u8]) -> bool {
    match (call.code, answer) {
        (Code::MediaType, Ok([length, ..])) => out[..length].contains(&b';'),
        (Code::WriteTypes, Ok([length, ..])) => {
            let mut windows = out[..length].windows(6);
            windows.any(|bytes| bytes == b"=&amp;")
        }
        _ => call.puts_parameters(),
    }
}

/// Both sides and what was seen so far.
pub struct Pair<'a> {
    pub package: &'a mut Package,
    pub ledger: Ledger,
    pub seen: &'a mut Seen,
    /// All calls of the list up to now, for the message.
    pub made: Vec<Call>,
    /// The stream that the archive wrote last, if the last call was one to.
    pub wrote: Option<Vec<u8>>,
}

impl Pair<'_> {
    /// Makes a call on both sides and compares.
    pub fn compare(&mut self, random: &mut Random, call: &Call) -> Answer {
        let length = self.package.as_bytes().len() as u64;
        let mut outputs = Outputs::new(random, call.lent);
        let cuts = matches!(call.code, Code::CutPart | Code::JoinPart);
        let cut = cuts.then(|| Before::new(call, &self.ledger));
        let asks = call.code == Code::TypeOrigin;
        let reads = matches!(call.code, Code::ReadTypes | Code::ReadRelationships);
        let reading = reads.then(|| Reading::new(call, &self.ledger));
        let keep = reads || (call.changes() || asks) && random.once_in(4);
        let kept = keep.then(|| self.package.as_bytes().to_vec());
        let answer = call.by_archive(self.package, outputs.archive());
        let right = call.by_reference(&mut self.ledger, length, outputs.reference());
        let told = || {
            let calls: Vec<String> = self.made.iter().chain([call]).map(Call::show).collect();
            format!("buffer {length}\n{}", calls.join("\n"))
        };
        assert!(answer == right, "{}: {answer:?} for {right:?}", told());
        outputs.check(call.written(answer), told);
        if call.code == Code::ViewItem {
            let name = &call.texts[0];
            let held = self.ledger.find_item(name).is_ok();
            let right = held.then(|| self.ledger.view_item(name));
            let alike = self.package.view_item(name) == right;
            assert!(alike, "{}: the views differ", told());
        }
        match kept {
            Some(kept) if asks || answer.is_err() => {
                assert!(self.package.as_bytes() == kept, "{} changed", call.show());
            }
            _ => {}
        }
        self.seen.add(call, answer, outputs.archive());
        self.wrote = match call.code {
            Code::WriteTypes | Code::WriteRelationships if answer.is_ok() => {
                Some(outputs.archive()[..call.written(answer)].to_vec())
            }
            _ => None,
        };
        let kinds = match (cut, reading) {
            (Some(before), _) => before.kinds(call, answer),
            (_, Some(reading)) => reading.kinds(answer, &self.ledger),
            _ if asks => origins::kinds(call, answer, &self.ledger),
            _ => Vec::new(),
        };
        for kind in kinds {
            *self.seen.kinds.entry(kind).or_insert(0) += 1;
        }
        self.made.push(call.clone());
        answer
    }

    /// Makes a call that asks for one thing by its texts, lent so many bytes.
    pub fn ask(&mut self, random: &mut Random, code: Code, texts: &[&[u8]], lent: usize) -> Answer {
        self.compare(random, &Call::new(code, texts).with_output(lent))
    }
}
