//! Scripts and outputs of each length, and bytes that are no calls.

use crate::bytes::{head, output_of, reply_at, script_of};
use crate::pair::Pair;
use crate::support::calls::Call;
use crate::support::Random;
use zombirels::script::{Code, REPLY_SIZE};

/// Seven short calls, most of them lent some bytes.
pub fn short_calls() -> [Call; 7] {
    [
        Call::new(Code::PutItem, &[b"/a.x", b"hello"]),
        Call::new(Code::PutItem, &[b"/A.x", b"again"]).with_output(3),
        Call::new(Code::PutDefault, &[b"X", b"a/b"]),
        Call::new(Code::TypeOrigin, &[b"/a.x"]).with_output(4),
        Call::new(Code::ViewItem, &[b"/A.x"]).with_output(2),
        Call::new(Code::ReadPart, &[b"/a.x"])
            .with_number(1)
            .with_output(9),
        Call::new(Code::Totals, &[]).with_output(1),
    ]
}

/// A script cut off at each of its bytes: the calls before are made, what is
/// left of the last is none.
#[test]
fn every_truncation() {
    let calls = short_calls();
    let script = script_of(&calls);
    for length in 0..=script.len() {
        let mut pair = Pair::new(100, 0);
        let (out, (written, read, count)) = pair.run(&script[..length], &[7; 400]);
        pair.compare();
        assert_eq!(read, script_of(&calls[..count]).len());
        let unread = usize::from(read < length);
        assert_eq!(written, output_of(&calls[..count]) + REPLY_SIZE * unread);
        if unread == 1 {
            assert_eq!(reply_at(&out[written - REPLY_SIZE..]), [16, 1, 0, 0, 0]);
            assert!(count < calls.len() && length < script_of(&calls[..count + 1]).len());
        }
    }
}

/// An output of each length: as many calls are made as find room.
#[test]
fn every_output() {
    let calls = short_calls();
    for tail in [&b""[..], b"no call"] {
        let script = [&script_of(&calls)[..], tail].concat();
        for length in 0..output_of(&calls) + 2 * REPLY_SIZE {
            let mut pair = Pair::new(100, 0);
            let (_, (written, _, count)) = pair.run(&script, &vec![7; length]);
            pair.compare();
            let unread = !tail.is_empty() && length >= output_of(&calls) + REPLY_SIZE;
            let answers = output_of(&calls[..count]);
            assert_eq!(written, answers + if unread { REPLY_SIZE } else { 0 });
            assert!(count == calls.len() || length < output_of(&calls[..count + 1]));
        }
    }
}

/// Scripts that are random bytes, of all lengths up to 300; in some the heads'
/// fields are small, so that they are calls.
#[test]
fn random_bytes() {
    let mut random = Random::new("random bytes");
    let (mut made, mut unread) = (0, 0);
    for round in 0..6000 {
        let mut script = random.bytes(round % 301);
        let small = random.below(4);
        if small > 0 {
            for at in (0..script.len()).step_by(4).take(8 * small) {
                let end = script.len().min(at + 4);
                script[at..end].fill(0);
                script[at] = random.pick(&[0, 1, 2, 3, 10, 11, 12, 18, 19, 20, 21, 22, 23, 24]);
            }
        }
        let mut pair = Pair::new(50, 0);
        let length = random.pick(&[0, 39, 40, 200, 1000]);
        let (_, (written, _, count)) = pair.run(&script, &random.bytes(length));
        pair.compare();
        made += count;
        unread += usize::from(written > 0);
    }
    println!("random bytes: {made} calls made, {unread} scripts answered");
    assert!(made > 0 && unread > 0);
}

/// Codes that are none, and numbers up to the greatest in every field.
#[test]
fn codes_and_lengths() {
    let behind = Call::new(Code::PutItem, &[b"/b", b"x"]).bytes();
    let first = Call::new(Code::PutItem, &[b"/a", b"x"]).bytes();
    let run = |bytes: Vec<u8>| {
        let mut pair = Pair::new(100, 0);
        let script = [&first[..], &bytes, &behind].concat();
        let (out, told) = pair.run(&script, &[7; 300]);
        pair.compare();
        (out, told)
    };
    let refused = (2 * REPLY_SIZE, first.len(), 1);
    for code in [
        0,
        24,
        25,
        255,
        256,
        257,
        1 << 16,
        1 << 24,
        1 << 31,
        u32::MAX,
    ] {
        let (out, told) = run(head(code, 0, [0; 4], 0));
        assert_eq!(told, refused, "code {code}");
        assert_eq!(reply_at(&out[REPLY_SIZE..]), [16, 1, 0, 0, 0]);
        // what is no call is lent nothing, whatever its head says
        assert_eq!(run(head(code, u32::MAX, [0; 4], 0)).1, refused);
    }
    let edges = [
        36,
        1 << 8,
        1 << 16,
        1 << 24,
        1 << 31,
        u32::MAX - 1,
        u32::MAX,
    ];
    for length in edges {
        for which in 0..4 {
            let mut lengths = [0; 4];
            lengths[which] = length;
            assert_eq!(run(head(12, 0, lengths, 0)).1, refused);
        }
        assert_eq!(run(head(12, 0, [length; 4], 0)).1, refused);
        // a call whose answer finds no room is not made; nor is the next
        let full = (REPLY_SIZE, first.len(), 1);
        let lent = length.max(300);
        assert_eq!(run(head(12, lent, [0; 4], 0)).1, full);
        assert_eq!(run(head(12, lent, [u32::MAX; 4], 0)).1, refused);
    }
    for number in [0, 1, 1 << 32, u64::MAX] {
        let (_, told) = run(head(12, 5, [0; 4], number));
        assert_eq!(told.2, 3);
    }
}
