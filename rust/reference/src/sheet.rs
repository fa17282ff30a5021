//! The program `sheet`, from its input to its output.

use crate::ledger::Ledger;
use crate::Refusal;

const CAPACITY: u64 = 30_000;
const PACKAGE_LENGTH: u64 = CAPACITY + 32_768;
const LINE_MAX: usize = 1024;

/// A readable line.
enum Line<'a> {
    Put(&'a [u8], &'a [u8]),
    Drop(&'a [u8]),
    Default(&'a [u8], &'a [u8]),
    Override(&'a [u8], &'a [u8]),
    List,
}

/// Runs the program.
pub fn run(input: &[u8]) -> Vec<u8> {
    let mut ledger = Ledger::default();
    let started = ledger.start(PACKAGE_LENGTH, CAPACITY);
    debug_assert_eq!(started, Ok(()));
    let mut output = Vec::new();
    for line in lines(input) {
        run_line(&mut ledger, line, &mut output);
    }
    output
}

/// The lines of the input; none follows a final LF.
fn lines(input: &[u8]) -> impl Iterator<Item = &[u8]> {
    let body = input.strip_suffix(b"\n").unwrap_or(input);
    let lines = if input.is_empty() { 0 } else { usize::MAX };
    body.split(|&byte| byte == b'\n').take(lines)
}

fn run_line(ledger: &mut Ledger, line: &[u8], output: &mut Vec<u8>) {
    let answer = match read(line) {
        Some(Line::Put(name, content)) => ledger.put_item(name, content),
        Some(Line::Drop(name)) => ledger.drop_item(name),
        Some(Line::Default(extension, kind)) => ledger.put_default(extension, kind),
        Some(Line::Override(name, kind)) => ledger.put_override(name, kind),
        Some(Line::List) => return list(ledger, output),
        None => Err(Refusal::UnreadableLine),
    };
    let number = answer.map_or_else(Refusal::number, |()| 0);
    output.extend_from_slice(format!("{number:3}\n").as_bytes());
}

fn list(ledger: &Ledger, output: &mut Vec<u8>) {
    for part in ledger.parts() {
        output.extend_from_slice(format!("{:4} {:8} ", part.pieces, part.bytes).as_bytes());
        output.extend_from_slice(part.name);
        output.push(b' ');
        output.extend_from_slice(part.media_type.unwrap_or(b"-"));
        output.push(b'\n');
    }
}

/// Reads a line; fields are parted by one space.
fn read(line: &[u8]) -> Option<Line<'_>> {
    if line.len() > LINE_MAX {
        return None;
    }
    if line == b"L" {
        return Some(Line::List);
    }
    let rest = line.get(2..).filter(|_| line[1] == b' ')?;
    match line[0] {
        b'P' => two_fields(rest).map(|(name, content)| Line::Put(name, content)),
        b'X' => field(rest).map(Line::Drop),
        b'D' => two_full_fields(rest).map(|(extension, kind)| Line::Default(extension, kind)),
        b'O' => two_full_fields(rest).map(|(name, kind)| Line::Override(name, kind)),
        _ => None,
    }
}

/// A field that isn't empty and has no space.
fn field(text: &[u8]) -> Option<&[u8]> {
    (!text.is_empty() && !text.contains(&b' ')).then_some(text)
}

/// A field and, after a space, any rest.
fn two_fields(text: &[u8]) -> Option<(&[u8], &[u8])> {
    let space = text.iter().position(|&byte| byte == b' ')?;
    Some((field(&text[..space])?, &text[space + 1..]))
}

fn two_full_fields(text: &[u8]) -> Option<(&[u8], &[u8])> {
    let (first, second) = two_fields(text)?;
    Some((first, field(second)?))
}

#[cfg(test)]
mod tests {
    use super::*;

    fn output(input: &str) -> String {
        String::from_utf8(run(input.as_bytes())).unwrap()
    }

    #[test]
    fn the_example() {
        let input = "P /a.xml hello\nP /B/[0].piece abc\nD XML text/xml\n\
                     P /b/[1].LAST.piece de\nL\n";
        let expected = "  0\n  0\n  0\n  0\n   1        5 /a.xml text/xml\n   2        5 /B -\n";
        assert_eq!(output(input), expected);
        assert_eq!(output(input.trim_end()), expected);
    }

    #[test]
    fn unreadable_lines() {
        for line in [
            "",
            " ",
            "L ",
            " L",
            "L\r",
            "l",
            "P",
            "P ",
            "P /a",
            "P  /a b",
            "X",
            "X ",
            "X /a b",
            "X /a ",
            "X  /a",
            "D a",
            "D a b c",
            "D a  b/c",
            "D a b/c ",
            "O /a",
            "O /a a/b c",
            "Q /a b",
            "P\t/a b",
            "DD a b",
        ] {
            assert_eq!(output(&format!("{line}\n")), " 16\n", "{line:?}");
        }
    }

    #[test]
    fn contents_and_ends() {
        assert_eq!(output(""), "");
        assert_eq!(output("\n"), " 16\n");
        assert_eq!(output("L"), "");
        let input = "P /a \nP /b  x y \nX /c\nX /B\nP /b/[0].last.piece a\nL\n\n";
        let expected = "  0\n  0\n 13\n  0\n  0\n   1        0 /a -\n   1        1 /b -\n 16\n";
        assert_eq!(output(input), expected);
        let spaces = "P /b  x y \nO /B t/x\nL";
        assert_eq!(output(spaces), "  0\n  0\n   1        5 /b t/x\n");
    }

    #[test]
    fn long_lines() {
        let content = "x".repeat(1024 - 5);
        assert_eq!(output(&format!("P /a {content}\n")), "  0\n");
        assert_eq!(output(&format!("P /a {content}x\n")), " 16\n");
        assert_eq!(output(&"L".repeat(1025)), " 16\n");
    }

    #[test]
    fn refusals_are_printed() {
        let input = "P /a x\nP /A y\nP /a/b z\nP /x/[01].piece a\nP a b\nP /_rels/.rels x\n\
                     D a.b t/t\nD x t\nO a t/t\nO /a t\nP /a/[0].piece x\n";
        let expected = "  0\n 10\n 11\n  6\n  4\n  5\n  7\n  7\n  4\n  7\n 12\n";
        assert_eq!(output(input), expected);
    }
}
