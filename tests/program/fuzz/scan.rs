//! Blanks, tokens and numbers of all texts.

/// More than any number that a text may have. Longer ones are held here, so that digits without end don't wrap.
const BEYOND: i128 = 1 << 100;

pub struct Token<'a> {
    pub at: usize,
    pub bytes: &'a [u8],
}

pub fn is_blank(byte: u8) -> bool {
    matches!(byte, b' ' | b'\t' | b'\r' | b'\n')
}

pub fn tokens(text: &[u8]) -> Vec<Token<'_>> {
    let mut found = Vec::new();
    let mut at = 0;
    while at < text.len() {
        let length = text[at..].iter().take_while(|&&byte| !is_blank(byte)).count();
        if length > 0 {
            found.push(Token { at, bytes: &text[at..at + length] });
        }
        at += length.max(1);
    }
    found
}

/// The value of one or more digits.
pub fn digits(bytes: &[u8]) -> Option<i128> {
    if bytes.is_empty() || !bytes.iter().all(u8::is_ascii_digit) {
        return None;
    }
    Some(bytes.iter().fold(0, |value, digit| BEYOND.min(value * 10 + i128::from(digit - b'0'))))
}

/// The value of a sign or none and one or more digits.
pub fn number(bytes: &[u8]) -> Option<i128> {
    match bytes.first() {
        Some(b'-') => digits(&bytes[1..]).map(|value| -value),
        Some(b'+') => digits(&bytes[1..]),
        _ => digits(bytes),
    }
}

/// The tokens of a text, read one after the other.
pub struct Reader<'a> {
    tokens: std::vec::IntoIter<Token<'a>>,
    length: usize,
}

impl<'a> Reader<'a> {
    pub fn over(text: &'a [u8]) -> Self {
        Reader { tokens: tokens(text).into_iter(), length: text.len() }
    }

    /// The next token, or the text's length where none is left.
    pub fn token(&mut self) -> Result<Token<'a>, usize> {
        self.tokens.next().ok_or(self.length)
    }
}
