//! What a call writes, in memory that is allocated for it.

use crate::Refusal;
use alloc::string::String;
use alloc::vec;
use alloc::vec::Vec;

/// The bytes that a call writes. `enough` of them suffice but in bytes that no
/// calls made: there the refusal names the length for a second call.
pub(crate) fn to_vec(
    enough: usize,
    mut call: impl FnMut(&mut [u8]) -> Result<usize, Refusal>,
) -> Result<Vec<u8>, Refusal> {
    let mut out = vec![0; enough];
    let mut answer = call(&mut out);
    if let Err(Refusal::OutputTooShort { needed }) = answer {
        out = vec![0; needed];
        answer = call(&mut out);
    }
    out.truncate(answer?);
    out.shrink_to_fit();
    Ok(out)
}

/// The text that a call writes.
pub(crate) fn to_string(
    enough: usize,
    call: impl FnMut(&mut [u8]) -> Result<usize, Refusal>,
) -> Result<String, Refusal> {
    text(to_vec(enough, call)?)
}

/// Bytes as text. Calls make no others.
pub(crate) fn text(bytes: Vec<u8>) -> Result<String, Refusal> {
    String::from_utf8(bytes).map_err(|_| Refusal::NotAPackage)
}

#[cfg(test)]
mod tests {
    use super::*;

    /// Writes so many bytes, and counts the calls.
    fn writes(length: usize, calls: &mut usize, out: &mut [u8]) -> Result<usize, Refusal> {
        *calls += 1;
        let short = Refusal::OutputTooShort { needed: length };
        out.get_mut(..length).ok_or(short)?.fill(b'x');
        Ok(length)
    }

    #[test]
    fn one_call_where_the_output_suffices() {
        for (enough, length, expected) in [(0, 0, 1), (3, 0, 1), (3, 3, 1), (3, 4, 2)] {
            let mut calls = 0;
            let bytes = to_vec(enough, |out| writes(length, &mut calls, out));
            assert_eq!(bytes, Ok(vec![b'x'; length]));
            assert_eq!(calls, expected);
        }
    }

    #[test]
    fn refusals_are_told() {
        let refused = to_vec(3, |_| Err(Refusal::NotHeld));
        assert_eq!(refused, Err(Refusal::NotHeld));
        // one that never has enough
        let mut calls = 0;
        let never = to_vec(3, |out| {
            calls += 1;
            let needed = out.len() + 1;
            Err(Refusal::OutputTooShort { needed })
        });
        assert_eq!(never, Err(Refusal::OutputTooShort { needed: 5 }));
        assert_eq!(calls, 2);
    }

    #[test]
    fn texts() {
        let text = to_string(3, |out| writes(2, &mut 0, out));
        assert_eq!(text.as_deref(), Ok("xx"));
        let none = to_string(3, |out| {
            out[0] = 0xFF;
            Ok(1)
        });
        assert_eq!(none, Err(Refusal::NotAPackage));
    }
}
