//! The bytes of calls and of their answers.

use crate::support::calls::{Answer, Call};
use zombirels::script::{Code, REPLY_SIZE};

impl Call {
    /// The head, then the texts.
    pub fn bytes(&self) -> Vec<u8> {
        let lengths = [0, 1, 2, 3].map(|i| self.texts[i].len() as u32);
        let head = head(self.code.number(), self.lent as u32, lengths, self.number);
        [head, self.texts.concat()].concat()
    }

    /// The bytes of its answer.
    pub fn span(&self) -> usize {
        REPLY_SIZE + self.lent
    }

    /// The reply that tells an answer: how many values the call has, and them,
    /// or the refusal.
    pub fn reply_bytes(&self, answer: Answer) -> Vec<u8> {
        let count = match self.code {
            Code::Totals | Code::ResolveRelationship => 3,
            Code::CutPart | Code::TypeOrigin => 2,
            _ => 1,
        };
        let (number, [first, second, third]) = match answer {
            Ok(values) => (0, values.map(|value| value as u64)),
            Err((number, needed)) => (number, [needed as u64, 0, 0]),
        };
        let reply = [number, count, first, second, third];
        reply.iter().flat_map(|field| field.to_le_bytes()).collect()
    }
}

pub fn head(code: u32, lent: u32, lengths: [u32; 4], number: u64) -> Vec<u8> {
    let [a, b, c, d] = lengths;
    let (low, high) = (number as u32, (number >> 32) as u32);
    let fields = [code, lent, a, b, c, d, low, high];
    fields
        .iter()
        .flat_map(|field| field.to_le_bytes())
        .collect()
}

pub fn script_of(calls: &[Call]) -> Vec<u8> {
    calls.iter().flat_map(Call::bytes).collect()
}

pub fn output_of(calls: &[Call]) -> usize {
    calls.iter().map(Call::span).sum()
}

/// The five numbers of a reply.
pub fn reply_at(bytes: &[u8]) -> [u64; 5] {
    std::array::from_fn(|i| u64::from_le_bytes(bytes[8 * i..][..8].try_into().expect("eight")))
}
