//! IRIs: judging, splitting (RFC 3986 appendix B) and resolving (5.2, 5.3).

use crate::names::{after_last_slash, check_source, is_part_name, is_reserved, is_segment_text};
use crate::{write_out, Refusal};

/// The components of an IRI. A component that isn't there is `None`, one
/// that is there but empty is not.
#[derive(Clone, Copy, Debug, PartialEq, Eq)]
pub struct Components<'a> {
    pub scheme: Option<&'a [u8]>,
    pub authority: Option<&'a [u8]>,
    pub path: &'a [u8],
    pub query: Option<&'a [u8]>,
    pub fragment: Option<&'a [u8]>,
}

/// Whether `text` is an IRI in the paper's sense: 1 to 255 bytes.
pub fn is_iri(text: &[u8]) -> bool {
    (1..=255).contains(&text.len())
        && text.iter().filter(|&&byte| byte == b'#').count() <= 1
        && text
            .split(|byte| matches!(byte, b'/' | b'?' | b'#'))
            .all(|part| is_segment_text(part, |_| true))
        && before_colon(text).is_none_or(is_scheme)
}

/// Whether `text` is a package IRI: an IRI with a scheme.
pub fn is_package_iri(text: &[u8]) -> bool {
    before_colon(text).is_some() && is_iri(text)
}

/// What stands before the first colon, if that precedes every `/ ? #`.
fn before_colon(text: &[u8]) -> Option<&[u8]> {
    let stop = text.iter().position(|byte| b":/?#".contains(byte))?;
    (text[stop] == b':').then_some(&text[..stop])
}

fn is_scheme(text: &[u8]) -> bool {
    let is_tail = |b: &u8| b.is_ascii_alphanumeric() || b"+-.".contains(b);
    match text {
        [first, rest @ ..] => first.is_ascii_alphabetic() && rest.iter().all(is_tail),
        [] => false,
    }
}

/// Splits any text as the expression of RFC 3986 appendix B does.
pub fn split(text: &[u8]) -> Components<'_> {
    let scheme = before_colon(text).filter(|scheme| !scheme.is_empty());
    let rest = scheme.map_or(text, |scheme| &text[scheme.len() + 1..]);
    let (rest, fragment) = cut_at(rest, b'#');
    let (rest, query) = cut_at(rest, b'?');
    let (authority, path) = match rest.strip_prefix(b"//") {
        Some(rest) => {
            let end = rest.iter().position(|&byte| byte == b'/');
            let (authority, path) = rest.split_at(end.unwrap_or(rest.len()));
            (Some(authority), path)
        }
        None => (None, rest),
    };
    Components {
        scheme,
        authority,
        path,
        query,
        fragment,
    }
}

/// What stands before and after the first `mark`.
fn cut_at(text: &[u8], mark: u8) -> (&[u8], Option<&[u8]>) {
    match text.iter().position(|&byte| byte == mark) {
        Some(at) => (&text[..at], Some(&text[at + 1..])),
        None => (text, None),
    }
}

/// Resolves `reference` against `base` (RFC 3986 5.2.2 strict, then 5.3).
pub fn resolve(base: &[u8], reference: &[u8]) -> Vec<u8> {
    let base = split(base);
    let reference = split(reference);
    let path;
    let mut target = reference;
    if reference.scheme.is_some() {
        path = remove_dot_segments(reference.path);
    } else if reference.authority.is_some() {
        target.scheme = base.scheme;
        path = remove_dot_segments(reference.path);
    } else {
        target.scheme = base.scheme;
        target.authority = base.authority;
        if reference.path.is_empty() {
            path = base.path.to_vec();
            target.query = reference.query.or(base.query);
        } else if reference.path.starts_with(b"/") {
            path = remove_dot_segments(reference.path);
        } else {
            path = remove_dot_segments(&merge(&base, reference.path));
        }
    }
    target.path = &path;
    recompose(&target)
}

/// RFC 3986 5.2.3: `path` in place of the base path's last segment.
fn merge(base: &Components, path: &[u8]) -> Vec<u8> {
    let folder = if base.authority.is_some() && base.path.is_empty() {
        b"/"
    } else {
        &base.path[..after_last_slash(base.path)]
    };
    [folder, path].concat()
}

/// RFC 3986 5.2.4, by its letter.
fn remove_dot_segments(path: &[u8]) -> Vec<u8> {
    let mut input = path;
    let mut output = Vec::with_capacity(path.len());
    while !input.is_empty() {
        if input.starts_with(b"../") {
            input = &input[3..];
        } else if input.starts_with(b"./") || input.starts_with(b"/./") {
            input = &input[2..];
        } else if input == b"/." {
            input = b"/";
        } else if input.starts_with(b"/../") {
            input = &input[3..];
            remove_last_segment(&mut output);
        } else if input == b"/.." {
            input = b"/";
            remove_last_segment(&mut output);
        } else if input == b"." || input == b".." {
            input = b"";
        } else {
            let slash = input[1..].iter().position(|&byte| byte == b'/');
            let (segment, rest) = input.split_at(slash.map_or(input.len(), |at| at + 1));
            output.extend_from_slice(segment);
            input = rest;
        }
    }
    output
}

/// Removes the last segment and the slash before it, if any.
fn remove_last_segment(output: &mut Vec<u8>) {
    let slash = output.iter().rposition(|&byte| byte == b'/');
    output.truncate(slash.unwrap_or(0));
}

/// RFC 3986 5.3.
fn recompose(parts: &Components) -> Vec<u8> {
    let mut text = Vec::new();
    if let Some(scheme) = parts.scheme {
        text.extend_from_slice(scheme);
        text.push(b':');
    }
    if let Some(authority) = parts.authority {
        text.extend_from_slice(b"//");
        text.extend_from_slice(authority);
    }
    text.extend_from_slice(parts.path);
    if let Some(query) = parts.query {
        text.push(b'?');
        text.extend_from_slice(query);
    }
    if let Some(fragment) = parts.fragment {
        text.push(b'#');
        text.extend_from_slice(fragment);
    }
    text
}

/// `text` without its fragment.
pub fn without_fragment(text: &[u8]) -> &[u8] {
    cut_at(text, b'#').0
}

/// Resolves an external target against a package IRI.
pub fn resolve_reference(base: &[u8], reference: &[u8], out: &mut [u8]) -> Result<usize, Refusal> {
    if !is_package_iri(base) || !is_iri(reference) {
        return Err(Refusal::BadTarget);
    }
    write_out(out, &resolve(without_fragment(base), reference))
}

/// Resolves an internal target; the output gets the name of its part.
pub fn resolve_target(source: &[u8], target: &[u8], out: &mut [u8]) -> Result<usize, Refusal> {
    check_source(source)?;
    write_out(out, &target_part(source, target)?)
}

/// The part name that an internal target leads to from a well-formed source.
pub fn target_part(source: &[u8], target: &[u8]) -> Result<Vec<u8>, Refusal> {
    if !is_internal(target) {
        return Err(Refusal::BadTarget);
    }
    let name = target_path(source, target);
    if !is_part_name(&name) {
        Err(Refusal::BadTarget)
    } else if is_reserved(&name) {
        Err(Refusal::Reserved)
    } else {
        Ok(name)
    }
}

/// Whether `target` is an IRI that consists of a path only.
fn is_internal(target: &[u8]) -> bool {
    is_iri(target) && split(target).path.len() == target.len()
}

/// The path that resolving gives when the base is a pack IRI with path `source`.
pub(crate) fn target_path(source: &[u8], target: &[u8]) -> Vec<u8> {
    if target.starts_with(b"/") {
        remove_dot_segments(target)
    } else {
        let folder = &source[..after_last_slash(source)];
        remove_dot_segments(&[folder, target].concat())
    }
}

#[cfg(test)]
mod tests;
