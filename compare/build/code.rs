//! Which bytes of a Rust text are code.

/// The first place from `from` on where `pattern` stands in code.
pub fn find_code(text: &str, code: &[bool], pattern: &str, from: usize) -> Option<usize> {
    text[from..]
        .match_indices(pattern)
        .map(|(at, _)| from + at)
        .find(|&at| code[at])
}

/// For each byte, whether it is code: outside comments, strings and characters.
pub fn code_mask(text: &str) -> Vec<bool> {
    let bytes = text.as_bytes();
    let mut code = vec![true; bytes.len()];
    let mut at = 0;
    while at < bytes.len() {
        let end = if bytes[at..].starts_with(b"//") {
            text[at..].find('\n').map_or(bytes.len(), |n| at + n)
        } else if bytes[at..].starts_with(b"/*") {
            panic!("a block comment, which this source doesn't have");
        } else if bytes[at] == b'"' {
            string_end(bytes, at)
        } else if bytes[at] == b'\'' {
            character_end(text, at)
        } else {
            at + 1
        };
        if end > at + 1 {
            code[at..end].fill(false);
        }
        at = end;
    }
    code
}

/// The end of the string that opens at `at`. Raw strings would need a rule of their own.
fn string_end(bytes: &[u8], at: usize) -> usize {
    assert!(
        at == 0 || !matches!(bytes[at - 1], b'r' | b'#'),
        "a raw string, which this source doesn't have"
    );
    let mut end = at + 1;
    while bytes[end] != b'"' {
        end += if bytes[end] == b'\\' { 2 } else { 1 };
    }
    end + 1
}

/// The end of the character that opens at `at`; a lifetime is only its quote.
fn character_end(text: &str, at: usize) -> usize {
    let mut rest = text[at + 1..].char_indices();
    match rest.next() {
        Some((_, '\\')) => at + 2 + text[at + 2..].find('\'').expect("a closed character") + 1,
        Some(_) => match rest.next() {
            Some((n, '\'')) => at + 1 + n + 1,
            _ => at + 1,
        },
        None => at + 1,
    }
}
