//! The names of pieces, and what a cut adds to the charge.

/// The suffix of piece `k` out of `count`, the final one marked last.
pub fn suffix(k: usize, count: usize) -> String {
    let mark = if k + 1 == count { ".last" } else { "" };
    format!("/[{k}]{mark}.piece")
}

/// The name of piece `k` out of `count`.
pub fn piece(prefix: &[u8], k: usize, count: usize) -> Vec<u8> {
    [prefix, suffix(k, count).as_bytes()].concat()
}

/// By how much the charge grows if a part whose name has `name` bytes is cut
/// into `count` pieces, 1 to 1,000: by their names but for the part's own. A
/// suffix has 10 bytes, one more from number 10 and from number 100 on; the
/// last one has 5 more.
pub fn cost(name: usize, count: usize) -> usize {
    let digits = count.saturating_sub(10) + count.saturating_sub(100);
    (count - 1) * name + 10 * count + digits + 5
}
