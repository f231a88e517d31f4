//! A text as the whole list of its tokens (document 01, "Bytes and words").

use crate::bytes::{is_escapable, is_legal, is_white, is_word_byte};

/// "Tokens are `(`, `)`, `:`, `*`, a quoted string, a word. [..] Any other printable byte is a
/// token that no rule here allows."
#[derive(Clone, Copy, Debug, PartialEq, Eq)]
pub enum TokenKind {
    Open,
    Close,
    Colon,
    Star,
    Text,
    Word,
    Other,
}

/// A token and its bytes in the text, a string's quotes included. The places are 32 bits wide, as
/// a text within the limit may have sixteen million tokens.
#[derive(Clone, Copy, Debug)]
pub struct Token {
    pub kind: TokenKind,
    start: u32,
    end: u32,
}

impl Token {
    fn new(kind: TokenKind, start: usize, end: usize) -> Token {
        Token { kind, start: start as u32, end: end as u32 }
    }

    pub fn start(self) -> usize {
        self.start as usize
    }

    pub fn end(self) -> usize {
        self.end as usize
    }
}

/// A refusal 2 or 3: its number and place.
pub type Fault = (u8, usize);

/// The tokens that start before the first refusal 2 or 3, and that refusal, if there is one.
/// Tokens behind it can't matter, as "the lowest place wins".
pub struct Tokens {
    pub list: Vec<Token>,
    pub fault: Option<Fault>,
}

/// What stands at one place: how far it goes, and whether it is a token.
struct Piece {
    end: usize,
    token: Option<TokenKind>,
    fault: Option<Fault>,
}

/// Cuts a text, not longer than the limit of refusal 1, into tokens.
pub fn tokens(text: &[u8]) -> Tokens {
    let mut list = Vec::new();
    let mut place = 0;
    while let Some(&byte) = text.get(place) {
        let piece = piece(text, place, byte);
        if let Some(kind) = piece.token {
            list.push(Token::new(kind, place, piece.end));
        }
        if piece.fault.is_some() {
            return Tokens { list, fault: piece.fault };
        }
        place = piece.end;
    }
    Tokens { list, fault: None }
}

fn piece(text: &[u8], place: usize, byte: u8) -> Piece {
    let single = |token| Piece { end: place + 1, token, fault: None };
    match byte {
        _ if is_white(byte) => single(None),
        b'(' => single(Some(TokenKind::Open)),
        b')' => single(Some(TokenKind::Close)),
        b':' => single(Some(TokenKind::Colon)),
        b'*' => single(Some(TokenKind::Star)),
        b'"' => string(text, place),
        _ if starts_comment(text, place) => comment(text, place),
        _ if is_word_byte(byte) || is_pair(text, place) => {
            Piece { end: word_end(text, place), token: Some(TokenKind::Word), fault: None }
        }
        // "a backslash without a byte 0x21 to 0x7E after it", or an illegal byte
        _ if byte == b'\\' || !is_legal(byte) => Piece { end: place, token: None, fault: Some((2, place)) },
        _ => single(Some(TokenKind::Other)),
    }
}

/// "A backslash takes the next byte, 0x21 to 0x7E, into the word".
fn is_pair(text: &[u8], place: usize) -> bool {
    text.get(place) == Some(&b'\\') && text.get(place + 1).is_some_and(|&next| is_escapable(next))
}

/// "Outside strings and escapes, `//` [..] and `/*` [..] end a word and start a comment".
fn starts_comment(text: &[u8], place: usize) -> bool {
    text.get(place) == Some(&b'/') && matches!(text.get(place + 1), Some(b'/' | b'*'))
}

/// "A word is a longest run of letters, digits, `_ $ . / [ ] + -` and escaped pairs; `:` belongs
/// to it only after an unescaped `[`, up to the next unescaped `]`."
fn word_end(text: &[u8], start: usize) -> usize {
    let mut place = start;
    let mut in_bracket = false;
    while let Some(&byte) = text.get(place) {
        if is_pair(text, place) {
            place += 2;
            continue;
        }
        let belongs = is_word_byte(byte) || (byte == b':' && in_bracket);
        if !belongs || starts_comment(text, place) {
            break;
        }
        match byte {
            b'[' => in_bracket = true,
            b']' => in_bracket = false,
            _ => {}
        }
        place += 1;
    }
    place
}

/// "In a string a backslash takes the next byte along, and newlines are allowed." A string with an
/// illegal byte inside is still a token; one that is never closed is none.
fn string(text: &[u8], start: usize) -> Piece {
    let mut place = start + 1;
    while let Some(&byte) = text.get(place) {
        match byte {
            b'"' => return closed(text, start, place + 1, Some(TokenKind::Text)),
            b'\\' => place += 2,
            _ => place += 1,
        }
    }
    Piece { end: start, token: None, fault: Some((3, start)) }
}

/// "`//` (to the next LF or the text's end) and `/*` (to a `*/` wholly after it) [..] start a
/// comment; comments don't nest."
fn comment(text: &[u8], start: usize) -> Piece {
    let inside = text.get(start + 2..).unwrap_or(&[]);
    let length = if text.get(start + 1) == Some(&b'/') {
        Some(inside.iter().position(|&byte| byte == b'\n').map_or(inside.len(), |lf| lf + 1))
    } else {
        inside.windows(2).position(|two| two == b"*/").map(|mark| mark + 2)
    };
    match length {
        Some(length) => closed(text, start, start + 2 + length, None),
        None => Piece { end: start, token: None, fault: Some((3, start)) },
    }
}

/// A string or comment that has an end: its first illegal byte is the fault, if it has one.
fn closed(text: &[u8], start: usize, end: usize, token: Option<TokenKind>) -> Piece {
    let bytes = text.get(start..end).unwrap_or(&[]);
    let illegal = bytes.iter().position(|&byte| !is_legal(byte));
    Piece { end, token, fault: illegal.map(|offset| (2, start + offset)) }
}
