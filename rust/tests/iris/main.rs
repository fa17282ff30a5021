//! Compares the archive with the reference on IRIs, targets, pack IRIs and
//! Relationships parts: every answer and every output byte.

mod bytes;
mod examples;
mod random;
#[path = "../support/mod.rs"]
mod support;
mod texts;

use reference::{iri as ref_iri, pack, relationships};
use support::outputs::Outputs;
use support::{numbers, show, Random};
use zombirels::iri;

/// The lengths written, or the number of the refusal and the length needed.
type Answer = Result<(usize, usize), (u64, usize)>;

/// A call that writes, as both sides have it. The second input is empty for
/// calls with one.
#[derive(Clone, Copy, Debug)]
enum Call {
    Reference,
    Target,
    Compose,
    Resolve,
    RelationshipsPart,
    SourceOf,
}

impl Call {
    fn by_archive(self, a: &[u8], b: &[u8], out: &mut [u8]) -> Answer {
        let answer = match self {
            Call::Reference => iri::resolve_reference(a, b, out),
            Call::Target => iri::resolve_target(a, b, out),
            Call::Compose => iri::compose_pack_iri(a, b, out),
            Call::Resolve => {
                let lengths = iri::resolve_pack_iri(a, out).map_err(numbers)?;
                return Ok((lengths.package, lengths.part));
            }
            Call::RelationshipsPart => iri::relationships_part(a, out),
            Call::SourceOf => iri::source_of_relationships_part(a, out),
        };
        answer.map(|length| (length, 0)).map_err(numbers)
    }

    fn by_reference(self, a: &[u8], b: &[u8], out: &mut [u8]) -> Answer {
        let answer = match self {
            Call::Reference => ref_iri::resolve_reference(a, b, out),
            Call::Target => ref_iri::resolve_target(a, b, out),
            Call::Compose => pack::compose(a, b, out),
            Call::Resolve => {
                return pack::resolve(a, out).map_err(|refusal| (refusal.number(), refusal.value()))
            }
            Call::RelationshipsPart => relationships::relationships_part(a, out),
            Call::SourceOf => relationships::source_of(a, out),
        };
        let answer = answer.map(|length| (length, 0));
        answer.map_err(|refusal| (refusal.number(), refusal.value()))
    }

    /// Calls both sides with an output of `length` bytes, compares answers
    /// and outputs, and checks that what isn't written is kept, also on both
    /// sides of the output.
    fn compare_at(self, random: &mut Random, a: &[u8], b: &[u8], length: usize) -> Answer {
        let mut outputs = Outputs::new(random, length);
        let answer = self.by_archive(a, b, outputs.archive());
        let right = self.by_reference(a, b, outputs.reference());
        let input = || format!("{self:?}: {} {}, output {length}", show(a), show(b));
        assert_eq!(answer, right, "{}", input());
        outputs.check(answer.map_or(0, |(first, second)| first + second), input);
        answer
    }

    /// The length of an output that always suffices.
    fn suffices(self) -> usize {
        match self {
            Call::Reference => 511,
            Call::Target | Call::SourceOf => 255,
            Call::Compose => 1027,
            Call::Resolve => 510,
            Call::RelationshipsPart => 266,
        }
    }

    /// Compares with outputs of all kinds of lengths. Answers the number of
    /// the refusal other than 3, or 0.
    fn compare(self, random: &mut Random, a: &[u8], b: &[u8]) -> u64 {
        let needed = match self.compare_at(random, a, b, 0) {
            Err((3, needed)) => needed,
            Err((number, _)) => {
                let length = random.below(300);
                let again = self.compare_at(random, a, b, length);
                assert_eq!(again, Err((number, 0)));
                return number;
            }
            Ok(_) => panic!("{self:?} writes nothing: {} {}", show(a), show(b)),
        };
        assert!((1..=self.suffices()).contains(&needed));
        let short = self.compare_at(random, a, b, needed - 1);
        assert_eq!(short, Err((3, needed)));
        let exact = self.compare_at(random, a, b, needed);
        let longer = needed + 1 + random.below(64);
        assert_eq!(exact, self.compare_at(random, a, b, longer));
        0
    }

    /// What the archive writes, as text.
    fn text(self, a: &str, b: &str) -> Result<String, u64> {
        let mut out = [0; 1100];
        let answer = self.by_archive(a.as_bytes(), b.as_bytes(), &mut out);
        let (first, second) = answer.map_err(|(number, _)| number)?;
        Ok(String::from_utf8(out[..first + second].to_vec()).expect("UTF-8"))
    }
}
