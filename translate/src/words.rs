//! MIR as it is printed: words and parentheses.

use crate::refused::{ensure, refuse, Result};

#[derive(Debug)]
pub enum Tree {
    Word(String),
    Node(Vec<Tree>),
}

impl Tree {
    /// The word and its arguments: `(field 0)`, or `return` with none.
    pub fn parts(&self) -> Result<(&str, &[Tree])> {
        match self {
            Tree::Word(word) => Ok((word, &[])),
            Tree::Node(parts) => match &parts[..] {
                [Tree::Word(word), rest @ ..] => Ok((word, rest)),
                _ => refuse!("a node that begins with no word: {self:?}"),
            },
        }
    }

    pub fn word(&self) -> Result<&str> {
        match self {
            Tree::Word(word) => Ok(word),
            Tree::Node(_) => refuse!("a word is wanted, not {self:?}"),
        }
    }

    pub fn number(&self) -> Result<u64> {
        let word = self.word()?;
        ensure!(word.bytes().all(|b| b.is_ascii_digit()), "no number: {word}");
        word.parse().or_else(|_| refuse!("a number of more than 64 bits: {word}"))
    }

    pub fn count(&self) -> Result<usize> {
        Ok(self.number()? as usize)
    }

    /// A text in quotes, without them.
    pub fn quoted(&self) -> Result<String> {
        let word = self.word()?;
        match word.strip_prefix('"').and_then(|rest| rest.strip_suffix('"')) {
            Some(text) => Ok(text.to_string()),
            None => refuse!("no text in quotes: {word}"),
        }
    }

    /// The elements of `(cons a (cons b nil))`.
    pub fn list(&self, cons: &str, nil: &str) -> Result<Vec<&Tree>> {
        let (mut found, mut rest) = (Vec::new(), self);
        loop {
            match rest.parts()? {
                (word, []) if word == nil => return Ok(found),
                (word, [first, tail]) if word == cons => {
                    found.push(first);
                    rest = tail;
                }
                (word, _) => refuse!("no list: {word}"),
            }
        }
    }

    pub fn items(&self) -> Result<Vec<&Tree>> {
        self.list("lcons", "lnil")
    }
}

/// The words of a text; a text in quotes is one word.
fn words(text: &str) -> Result<Vec<&str>> {
    let (mut found, mut rest) = (Vec::new(), text.trim_start());
    while let Some(first) = rest.chars().next() {
        let length = match first {
            '(' | ')' => 1,
            '"' => match rest[1..].find('"') {
                Some(end) => end + 2,
                None => refuse!("a quote that is not closed"),
            },
            _ => rest.find(|c: char| c.is_whitespace() || "()\"".contains(c)).unwrap_or(rest.len()),
        };
        found.push(&rest[..length]);
        rest = rest[length..].trim_start();
    }
    Ok(found)
}

/// A whole text as one node.
pub fn read(text: &str) -> Result<Tree> {
    let mut open = vec![Vec::new()];
    for word in words(text)? {
        match word {
            "(" => open.push(Vec::new()),
            ")" => {
                let node = open.pop().unwrap_or_default();
                ensure!(!node.is_empty(), "a node with nothing in it");
                match open.last_mut() {
                    Some(around) => around.push(Tree::Node(node)),
                    None => refuse!("a parenthesis too many"),
                }
            }
            _ => match open.last_mut() {
                Some(node) => node.push(Tree::Word(word.to_string())),
                None => refuse!("a word after the end: {word}"),
            },
        }
    }
    match (open.pop(), open.is_empty()) {
        (Some(node), true) => Ok(Tree::Node(node)),
        _ => refuse!("a parenthesis that is not closed"),
    }
}
