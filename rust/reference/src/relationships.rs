//! The Relationships part of a source, and back.

use crate::names::{check_source, check_unreserved, is_equivalent, strip_rels};
use crate::{write_out, Refusal};

/// The longest name of a Relationships part: 255 bytes and `/_rels` and `.rels`.
const NAME_MAX: usize = 266;

/// Splits before the last slash.
fn split_last(name: &[u8]) -> Option<(&[u8], &[u8])> {
    let slash = name.iter().rposition(|&byte| byte == b'/')?;
    Some(name.split_at(slash))
}

/// Writes the name of the Relationships part of `source`.
pub fn relationships_part(source: &[u8], out: &mut [u8]) -> Result<usize, Refusal> {
    check_source(source)?;
    let (folder, last) = split_last(source).ok_or(Refusal::NotAPartName)?;
    write_out(out, &[folder, b"/_rels", last, b".rels"].concat())
}

/// Writes the source whose Relationships part `name` is.
pub fn source_of(name: &[u8], out: &mut [u8]) -> Result<usize, Refusal> {
    let source = take_back(name).ok_or(Refusal::NotAPartName)?;
    if source != b"/" && check_unreserved(&source).is_err() {
        return Err(Refusal::NotAPartName);
    }
    write_out(out, &source)
}

/// `name` without `/_rels` and `.rels`. What remains may be no source.
fn take_back(name: &[u8]) -> Option<Vec<u8>> {
    let (rest, last) = split_last(name)?;
    let (folder, rels) = split_last(rest)?;
    let stem = strip_rels(last)?;
    (name.len() <= NAME_MAX && is_equivalent(rels, b"/_rels")).then(|| [folder, stem].concat())
}

#[cfg(test)]
mod tests {
    use super::*;

    type Call = fn(&[u8], &mut [u8]) -> Result<usize, Refusal>;

    fn call(call: Call, name: &str) -> Result<String, u64> {
        let mut out = [0; 300];
        match call(name.as_bytes(), &mut out) {
            Ok(length) => Ok(String::from_utf8(out[..length].to_vec()).unwrap()),
            Err(refusal) => Err(refusal.number()),
        }
    }

    #[test]
    fn forth_and_back() {
        for (source, part) in [
            ("/", "/_rels/.rels"),
            ("/foo", "/_rels/foo.rels"),
            ("/foo/bar.xml", "/foo/_rels/bar.xml.rels"),
            ("/a/b/foo.xml", "/a/b/_rels/foo.xml.rels"),
            ("/.rels", "/_rels/.rels.rels"),
        ] {
            assert_eq!(call(relationships_part, source).as_deref(), Ok(part));
            assert_eq!(call(source_of, part).as_deref(), Ok(source));
        }
    }

    #[test]
    fn sources_refused() {
        for source in ["", "a", "/a.", "//", "/a/[0].piece"] {
            assert_eq!(call(relationships_part, source), Err(4), "{source}");
        }
        assert_eq!(call(relationships_part, "/_rels/.rels"), Err(5));
    }

    #[test]
    fn back_in_either_case() {
        let source = call(source_of, "/Foo/_RELS/Bar.xml.ReLs");
        assert_eq!(source.as_deref(), Ok("/Foo/Bar.xml"));
        assert_eq!(call(source_of, "/_Rels/.RELS").as_deref(), Ok("/"));
    }

    #[test]
    fn back_refused() {
        for name in [
            "",
            "/",
            "/a",
            "_rels/.rels",
            "/a/_rels/.rels",
            "/_rels/_rels/x.rels.rels",
            "/_rels/a..rels",
            "/_rels/a",
            "/a_rels/b.rels",
            "//_rels/.rels",
            "/_rels/a/.rels",
            "/_rels/%41.rels",
            "x/_rels/.rels",
        ] {
            assert_eq!(call(source_of, name), Err(4), "{name}");
        }
    }

    #[test]
    fn longest_names() {
        let source = "/".to_owned() + &"a".repeat(254);
        let part = call(relationships_part, &source).unwrap();
        assert_eq!(part.len(), 266);
        assert_eq!(call(source_of, &part), Ok(source));
        let longer = part.replace("aa.rels", "aaa.rels");
        assert_eq!((longer.len(), call(source_of, &longer)), (267, Err(4)));
    }

    #[test]
    fn outputs() {
        let mut out = *b"0123456789abc";
        assert_eq!(relationships_part(b"/", &mut out), Ok(12));
        assert_eq!(&out, b"/_rels/.relsc");
        let short = relationships_part(b"/xy", &mut out);
        assert_eq!(short, Err(Refusal::OutputTooShort(14)));
        assert_eq!(&out, b"/_rels/.relsc");
    }
}
