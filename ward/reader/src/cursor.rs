//! A line's tokens, and how far they are taken.

use crate::fault::Fault;
use crate::tokens::{Kind, Token};

/// A name that no line has declared.
pub struct Unknown {
    pub name: String,
    pub from: usize,
    pub to: usize,
}

pub struct Cursor<'a> {
    pub line: &'a str,
    tokens: Vec<Token<'a>>,
    at: usize,
    /// Where the part that is read ends.
    end: usize,
    pub unknown: Vec<Unknown>,
    /// How many brackets are open.
    pub depth: usize,
}

impl<'a> Cursor<'a> {
    pub fn new(line: &'a str, tokens: Vec<Token<'a>>, end: usize) -> Cursor<'a> {
        Cursor { line, tokens, at: 0, end: line[..end].trim_end().len(), unknown: Vec::new(), depth: 0 }
    }

    pub fn peek(&self, ahead: usize) -> Option<Token<'a>> {
        self.tokens.get(self.at + ahead).copied()
    }

    /// A token ahead as a word or sign; a name in quotes is none.
    pub fn plain(&self, ahead: usize) -> &'a str {
        self.peek(ahead).filter(|token| token.kind != Kind::Quoted).map_or("", |token| token.text)
    }

    /// Whether these words stand here; capital letters play no part.
    pub fn sees(&self, words: &str) -> bool {
        words.split(' ').enumerate().all(|(ahead, word)| self.plain(ahead).to_lowercase() == word)
    }

    /// The token that was taken last.
    pub fn last(&self) -> Option<Token<'a>> {
        self.tokens.get(self.at.checked_sub(1)?).copied()
    }

    pub fn take(&mut self) -> Option<Token<'a>> {
        let token = self.peek(0);
        self.at += token.is_some() as usize;
        token
    }

    /// Takes these words where they stand here; capital letters play no part.
    pub fn takes(&mut self, words: &str) -> bool {
        let found = self.sees(words);
        self.at += if found { words.split(' ').count() } else { 0 };
        found
    }

    /// How far it has come, to come back to.
    pub fn mark(&self) -> usize {
        self.at
    }

    /// Goes back to a mark; names that were not declared behind it are forgotten.
    pub fn back(&mut self, mark: usize, unknown: usize) {
        self.at = mark;
        self.unknown.truncate(unknown);
    }

    /// A fault at the next token, or behind the last.
    pub fn fault(&self, expected: &str) -> Fault {
        match self.peek(0) {
            Some(token) => {
                let found = self.line[token.from..token.to].to_string();
                Fault::new(token.from, token.to, format!("{expected}, not '{found}'"))
            }
            None => {
                let whole = self.line[self.end..].trim_start();
                let place = if whole.is_empty() || whole.starts_with('#') {
                    "at the end of the line".into()
                } else {
                    format!("before '{}'", whole.split_whitespace().next().unwrap_or(""))
                };
                Fault::new(self.end, self.end, format!("{expected} {place}"))
            }
        }
    }

    pub fn expect(&mut self, text: &str) -> Result<(), Fault> {
        match self.takes(text) {
            true => Ok(()),
            false => Err(self.fault(&format!("'{text}' is expected"))),
        }
    }

    /// The tokens that are left.
    pub fn left(&self) -> &[Token<'a>] {
        self.tokens.get(self.at..).unwrap_or(&[])
    }

    /// What is left, cut at the first token of a kind: the part before it, the token, and the part behind it.
    pub fn split(&self, at: impl Fn(&Token) -> bool) -> Option<(Cursor<'a>, Token<'a>, Cursor<'a>)> {
        let tokens = self.left();
        let place = tokens.iter().position(at)?;
        let token = tokens[place];
        let before = Cursor::new(self.line, tokens[..place].to_vec(), token.from);
        Some((before, token, Cursor::new(self.line, tokens[place + 1..].to_vec(), self.end)))
    }

    /// Where the next token starts.
    pub fn place(&self) -> usize {
        self.peek(0).map_or(self.end, |token| token.from)
    }

    /// Where the part that is read ends.
    pub fn end(&self) -> usize {
        self.end
    }

    /// The rest of the part that is read.
    pub fn rest(&self) -> &'a str {
        self.line[self.place().min(self.end)..self.end].trim()
    }
}
