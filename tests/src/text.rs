//! Lines of bytes, as set text and beat lines both end them.

/// The first line of `bytes` without its end, and what follows it. Bytes without an LF are one line.
pub fn first_line(bytes: &[u8]) -> (&[u8], &[u8]) {
    match bytes.iter().position(|byte| *byte == b'\n') {
        None => (bytes, &[]),
        Some(end) => {
            let line = &bytes[..end];
            (line.strip_suffix(b"\r").unwrap_or(line), &bytes[end + 1..])
        }
    }
}

/// The lines of `bytes`; after a final LF there is none.
pub fn lines(bytes: &[u8]) -> impl Iterator<Item = &[u8]> {
    let mut rest = bytes;
    std::iter::from_fn(move || {
        if rest.is_empty() {
            return None;
        }
        let (line, after) = first_line(rest);
        rest = after;
        Some(line)
    })
}

/// Set text and what follows the first line `*`; nothing follows if there is no such line.
pub fn split_at_star(input: &[u8]) -> (&[u8], &[u8]) {
    let mut rest = input;
    while !rest.is_empty() {
        let (line, after) = first_line(rest);
        if line == b"*" {
            return (&input[..input.len() - rest.len()], after);
        }
        rest = after;
    }
    (input, &[])
}

/// A line without its comment.
pub fn without_comment(line: &[u8]) -> &[u8] {
    line.split(|byte| *byte == b';').next().unwrap_or(line)
}
