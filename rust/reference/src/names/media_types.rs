//! Media types and their parameters.

/// Whether `text` is a media type, 3 to 127 bytes: token/token, then any number
/// of parameters, each `;`, a token, `=`, a token.
pub fn is_media_type(text: &[u8]) -> bool {
    let mut stretches = text.split(|&byte| byte == b';');
    let kind = stretches.next().unwrap_or_default();
    text.len() <= 127
        && are_two_tokens(kind, b'/')
        && stretches.all(|parameter| are_two_tokens(parameter, b'='))
}

/// Whether `text` is a token, `mark`, a token.
fn are_two_tokens(text: &[u8], mark: u8) -> bool {
    match text.iter().position(|&byte| byte == mark) {
        Some(at) => is_token(&text[..at]) && is_token(&text[at + 1..]),
        None => false,
    }
}

fn is_token(text: &[u8]) -> bool {
    !text.is_empty() && text.iter().all(|&byte| is_token_byte(byte))
}

/// tchar of RFC 7230.
fn is_token_byte(byte: u8) -> bool {
    byte.is_ascii_alphanumeric() || b"!#$%&'*+-.^_`|~".contains(&byte)
}
