//! The response as tokens.

use std::fmt;

/// The token of the last label, 255.
const LAST_LABEL: u32 = numbers::LABELS + 255;

/// The tokens' numbers.
pub mod numbers {
    pub const LABELS: u32 = 1_000_000_000;
    pub const OPEN_OBJECT: u32 = 2_000_000_001;
    pub const CLOSE_OBJECT: u32 = 2_000_000_002;
    pub const OPEN_LIST: u32 = 2_000_000_003;
    pub const CLOSE_LIST: u32 = 2_000_000_004;
    pub const NULL: u32 = 2_000_000_005;
}

#[derive(Clone, Copy, Debug, PartialEq, Eq, Hash)]
pub enum Token {
    Value(u32),
    Label(u32),
    OpenObject,
    CloseObject,
    OpenList,
    CloseList,
    Null,
}

impl Token {
    /// The token that a number stands for; nothing where it stands for none.
    pub fn from_number(number: u32) -> Option<Token> {
        Some(match number {
            0..numbers::LABELS => Token::Value(number),
            numbers::LABELS..=LAST_LABEL => Token::Label(number - numbers::LABELS),
            numbers::OPEN_OBJECT => Token::OpenObject,
            numbers::CLOSE_OBJECT => Token::CloseObject,
            numbers::OPEN_LIST => Token::OpenList,
            numbers::CLOSE_LIST => Token::CloseList,
            numbers::NULL => Token::Null,
            _ => return None,
        })
    }
}

/// The line that the program `answer` writes for a token.
impl fmt::Display for Token {
    fn fmt(&self, to: &mut fmt::Formatter) -> fmt::Result {
        match self {
            Token::Value(value) => write!(to, "V\t{value}"),
            Token::Label(label) => write!(to, "L\t{label}"),
            Token::OpenObject => write!(to, "{{"),
            Token::CloseObject => write!(to, "}}"),
            Token::OpenList => write!(to, "["),
            Token::CloseList => write!(to, "]"),
            Token::Null => write!(to, "N"),
        }
    }
}

/// The tokens of a response, one by one.
pub fn tokens(response: &[u32]) -> Tokens<'_> {
    Tokens { numbers: response.iter() }
}

/// An iterator over the tokens of a response. It panics at a number that is no token, which no response has.
#[derive(Clone, Debug)]
pub struct Tokens<'a> {
    numbers: std::slice::Iter<'a, u32>,
}

impl Iterator for Tokens<'_> {
    type Item = Token;

    fn next(&mut self) -> Option<Token> {
        let number = *self.numbers.next()?;
        Some(Token::from_number(number).unwrap_or_else(|| panic!("{number} is no token")))
    }

    fn size_hint(&self) -> (usize, Option<usize>) {
        self.numbers.size_hint()
    }
}

impl ExactSizeIterator for Tokens<'_> {}
