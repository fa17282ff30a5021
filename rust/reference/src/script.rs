//! Scripts: calls in bytes, made one after the other on a ledger.

use crate::ledger::Ledger;
use crate::Refusal;

const HEAD: usize = 32;
const REPLY: usize = 40;

/// A call as a script has it.
struct Call<'a> {
    code: u32,
    lent: usize,
    /// The bytes of the script that the call has.
    size: usize,
    texts: [&'a [u8]; 4],
    number: u64,
}

/// Runs a script on the ledger of a package of `length` bytes: how many bytes
/// are written, how many of the script its calls have, how many were made.
pub fn run(
    ledger: &mut Ledger,
    length: u64,
    script: &[u8],
    out: &mut [u8],
) -> (usize, usize, usize) {
    let (mut written, mut read, mut calls) = (0, 0, 0);
    while read < script.len() {
        let call = Call::read(&script[read..]);
        let lent = call.as_ref().map_or(0, |call| call.lent);
        let Some(answer) = out[written..].get_mut(..REPLY + lent) else {
            break;
        };
        written += answer.len();
        let (reply, lent) = answer.split_at_mut(REPLY);
        let Some(call) = call else {
            let refusal = Refusal::UnreadableLine;
            reply.copy_from_slice(&reply_bytes(1, Err(refusal)));
            break;
        };
        let values = make(ledger, length, call.code, call.texts, call.number, lent);
        reply.copy_from_slice(&reply_bytes(call.count(), values));
        read += call.size;
        calls += 1;
    }
    (written, read, calls)
}

impl<'a> Call<'a> {
    /// The call that a script begins with, if it does.
    fn read(script: &'a [u8]) -> Option<Call<'a>> {
        let (head, mut rest) = script.split_at_checked(HEAD)?;
        let mut fields = [0; 8];
        for (field, bytes) in fields.iter_mut().zip(head.chunks_exact(4)) {
            *field = u32::from_le_bytes(bytes.try_into().ok()?);
        }
        let [code, lent, lengths @ .., low, high] = fields;
        let mut texts = [&[][..]; 4];
        let four: [u32; 4] = lengths;
        for (text, length) in texts.iter_mut().zip(four) {
            (*text, rest) = rest.split_at_checked(length as usize)?;
        }
        (1..=23).contains(&code).then_some(Call {
            code,
            lent: lent as usize,
            size: script.len() - rest.len(),
            texts,
            number: u64::from(low) | u64::from(high) << 32,
        })
    }

    /// How many values the call answers.
    fn count(&self) -> u64 {
        match self.code {
            12 | 16 => 3,
            19 | 21 => 2,
            _ => 1,
        }
    }
}

/// Makes a call by its code, its texts and its number, on the ledger of a
/// package of `length` bytes.
pub fn make(
    ledger: &mut Ledger,
    length: u64,
    code: u32,
    texts: [&[u8]; 4],
    number: u64,
    out: &mut [u8],
) -> Result<[u64; 3], Refusal> {
    let ([a, b, c, d], n) = (texts, number);
    let done = |()| [0; 3];
    let one = |value: usize| [value as u64, 0, 0];
    match code {
        1 => ledger.start(length, n).map(done),
        2 => ledger.put_item(a, b).map(done),
        3 => ledger.drop_item(a).map(done),
        4 => ledger.put_default(a, b).map(done),
        5 => ledger.drop_default(a).map(done),
        6 => ledger.put_override(a, b).map(done),
        7 => ledger.drop_override(a).map(done),
        8 => ledger.put_relationship(a, b, c, n, d).map(done),
        9 => ledger.drop_relationship(a, b).map(done),
        10 => ledger.find_item(a).map(one),
        11 => Ok(one(view(ledger, a, out))),
        12 => Ok(totals(ledger)),
        13 => ledger.read_part(a, n, out).map(one),
        14 => ledger.media_type(a, out).map(one),
        15 => ledger.part_at(n, out).map(one),
        16 => ledger
            .resolve_relationship(a, b, c, out)
            .map(|found| [found.length as u64, found.mode, u64::from(found.held)]),
        17 => ledger.write_types(out).map(one),
        18 => ledger.write_relationships(a, out).map(one),
        19 => ledger.cut_part(a, n).map(|cut| [cut.size, cut.longer, 0]),
        20 => ledger.join_part(a).map(done),
        21 => ledger
            .type_origin(a, out)
            .map(|origin| [origin.kind, origin.length as u64, 0]),
        22 => ledger.read_types(a).map(done),
        23 => ledger.read_relationships(a, b).map(done),
        _ => Err(Refusal::UnreadableLine),
    }
}

/// Copies the bytes of an item, as many as find room: its length.
fn view(ledger: &Ledger, name: &[u8], out: &mut [u8]) -> usize {
    let part = ledger.view_item(name);
    let copied = part.len().min(out.len());
    out[..copied].copy_from_slice(&part[..copied]);
    part.len()
}

fn totals(ledger: &Ledger) -> [u64; 3] {
    let totals = ledger.totals();
    [totals.items, totals.parts, totals.charge]
}

/// A reply as it lies in memory.
fn reply_bytes(count: u64, values: Result<[u64; 3], Refusal>) -> [u8; REPLY] {
    let (number, [first, second, third]) = match values {
        Ok(values) => (0, values),
        Err(refusal) => (refusal.number(), [refusal.value() as u64, 0, 0]),
    };
    let mut bytes = [0; REPLY];
    let fields = [number, count, first, second, third];
    for (place, field) in bytes.chunks_exact_mut(8).zip(fields) {
        place.copy_from_slice(&field.to_le_bytes());
    }
    bytes
}

#[cfg(test)]
mod tests {
    use super::*;
    use crate::examples::streams::{DEFAULT, RELATIONSHIP};

    /// A call with two texts.
    fn call(code: u32, lent: u32, a: &str, b: &str, number: u64) -> Vec<u8> {
        let (low, high) = (number as u32, (number >> 32) as u32);
        let (a_length, b_length) = (a.len() as u32, b.len() as u32);
        let head = [code, lent, a_length, b_length, 0, 0, low, high];
        let mut bytes: Vec<u8> = head.iter().flat_map(|field| field.to_le_bytes()).collect();
        bytes.extend_from_slice(a.as_bytes());
        bytes.extend_from_slice(b.as_bytes());
        bytes
    }

    fn numbers(reply: &[u8]) -> Vec<u64> {
        let eights = reply[..REPLY].chunks_exact(8);
        eights
            .map(|bytes| u64::from_le_bytes(bytes.try_into().unwrap()))
            .collect()
    }

    #[test]
    fn calls_in_a_row() {
        let script = [
            call(1, 0, "", "", 100),
            call(2, 0, "/a", "hello", 0),
            call(11, 3, "/A", "", 0),
            call(13, 6, "/a", "", 1),
            call(12, 0, "", "", 0),
        ]
        .concat();
        let mut out = [b'.'; 250];
        let ran = run(&mut Ledger::default(), 40_000, &script, &mut out);
        assert_eq!(ran, (5 * REPLY + 9, script.len(), 5));
        assert_eq!(numbers(&out), [0, 1, 0, 0, 0]);
        assert_eq!(numbers(&out[80..]), [0, 1, 5, 0, 0]);
        assert_eq!(&out[120..123], b"hel");
        assert_eq!(numbers(&out[123..]), [0, 1, 4, 0, 0]);
        assert_eq!(&out[163..169], b"ello..");
        assert_eq!(numbers(&out[169..]), [0, 3, 1, 1, 7]);
        assert_eq!(&out[209..], [b'.'; 41]);
    }

    #[test]
    fn cutting_and_joining() {
        let script = [
            call(1, 0, "", "", 100),
            call(2, 0, "/a", "hello", 0),
            call(19, 2, "/A", "", 1 << 32),
            call(19, 2, "/A", "", 3),
            call(20, 1, "/a", "", 7),
            call(20, 0, "/a", "", 0),
        ]
        .concat();
        let mut out = [b'.'; 250];
        let ran = run(&mut Ledger::default(), 40_000, &script, &mut out);
        assert_eq!(ran, (6 * REPLY + 5, script.len(), 6));
        assert_eq!(numbers(&out[80..]), [17, 2, 0, 0, 0]);
        assert_eq!(numbers(&out[122..]), [0, 2, 1, 2, 0]);
        assert_eq!(numbers(&out[164..]), [0, 1, 0, 0, 0]);
        assert_eq!(numbers(&out[205..]), [18, 1, 0, 0, 0]);
        assert_eq!((&out[120..122], &out[162..164]), (&b".."[..], &b".."[..]));
    }

    #[test]
    fn type_origins() {
        let script = [
            call(1, 0, "", "", 100),
            call(2, 0, "/a.x", "", 0),
            call(21, 0, "/a.x", "", 0),
            call(4, 0, "X", "a/b", 0),
            call(21, 3, "/A.x", "", 7),
            call(21, 0, "/a.x", "", 0),
            call(6, 0, "/A.X", "a/b", 0),
            call(21, 5, "/a.x", "", 0),
        ]
        .concat();
        let mut out = [b'.'; 400];
        let ran = run(&mut Ledger::default(), 40_000, &script, &mut out);
        assert_eq!(ran, (8 * REPLY + 8, script.len(), 8));
        assert_eq!(numbers(&out[80..]), [0, 2, 0, 0, 0]);
        assert_eq!(numbers(&out[160..]), [0, 2, 1, 1, 0]);
        assert_eq!(&out[200..203], b"X..");
        assert_eq!(numbers(&out[203..]), [3, 2, 1, 0, 0]);
        assert_eq!(numbers(&out[283..]), [0, 2, 2, 4, 0]);
        assert_eq!(&out[323..328], b"/A.X.");
    }

    #[test]
    fn streams() {
        let types = DEFAULT.stream(b"$<$e$>");
        let links = RELATIONSHIP.stream(b"$<$e$>");
        let [types, links] = [types, links].map(|stream| String::from_utf8(stream).unwrap());
        let deep = types.replace("/>", &"><p:a>".repeat(15));
        let script = [
            call(1, 0, "", "", 100),
            call(22, 2, &types, "", 7),
            call(22, 0, &types, &types, 0),
            call(22, 0, &links, "", 0),
            call(22, 0, &deep, "", 0),
            call(23, 0, "", &links, 0),
            call(23, 0, "/", &links, 0),
            call(23, 0, "/", &types, 0),
            call(12, 0, "", "", 0),
        ]
        .concat();
        let mut out = [b'.'; 400];
        let ran = run(&mut Ledger::default(), 40_000, &script, &mut out);
        assert_eq!(ran, (9 * REPLY + 2, script.len(), 9));
        assert_eq!(
            (numbers(&out[40..]), &out[80..82]),
            (vec![0, 1, 0, 0, 0], &b".."[..])
        );
        let rest: Vec<u64> = (82..362)
            .step_by(REPLY)
            .map(|at| numbers(&out[at..])[0])
            .collect();
        assert_eq!(rest, [10, 19, 20, 4, 0, 19, 0]);
        assert_eq!(numbers(&out[322..]), [0, 3, 0, 0, 4 + 1 + 1 + 3 + 1]);
    }

    #[test]
    fn ends() {
        let start = call(1, 5, "", "", 100);
        let wrong = call(24, 100, "", "", 0);
        let script = [&start[..], &wrong, &start].concat();
        let mut out = [7; 200];
        let mut ran = |script: &[u8], length| {
            out.fill(7);
            let ran = run(&mut Ledger::default(), 40_000, script, &mut out[..length]);
            assert!(out[ran.0..].iter().all(|&byte| byte == 7));
            ran
        };
        assert_eq!(ran(&[], 200), (0, 0, 0));
        assert_eq!(ran(&script, 44), (0, 0, 0));
        assert_eq!(ran(&script, 45), (45, 32, 1));
        assert_eq!(ran(&script, 84), (45, 32, 1));
        assert_eq!(ran(&script, 85), (85, 32, 1));
        assert_eq!(ran(&start[..31], 39), (0, 0, 0));
        assert_eq!(ran(&start[..31], 40), (40, 0, 0));
        assert_eq!(numbers(&out), [16, 1, 0, 0, 0]);
    }
}
