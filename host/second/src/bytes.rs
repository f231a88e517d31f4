//! Which bytes are what (document 01, "Bytes and words").

/// "Tab, LF, CR and space are white space."
pub fn is_white(byte: u8) -> bool {
    matches!(byte, b'\t' | b'\n' | b'\r' | b' ')
}

/// "Legal bytes are tab, LF, CR and 0x20 to 0x7E, also in strings and comments."
pub fn is_legal(byte: u8) -> bool {
    is_white(byte) || is_escapable(byte)
}

/// What a backslash may take into a word: "the next byte, 0x21 to 0x7E".
pub fn is_escapable(byte: u8) -> bool {
    (0x21..=0x7E).contains(&byte)
}

/// What a component of a name is made of, escaped pairs apart: "letters, digits, `_`, `$`".
pub fn is_name_byte(byte: u8) -> bool {
    byte.is_ascii_alphanumeric() || byte == b'_' || byte == b'$'
}

/// What a word is made of, escaped pairs and `:` apart: "letters, digits, `_ $ . / [ ] + -`".
pub fn is_word_byte(byte: u8) -> bool {
    is_name_byte(byte) || matches!(byte, b'.' | b'/' | b'[' | b']' | b'+' | b'-')
}
