//! The words after a request's name.

use crate::words::{Mistake, Word};

/// Words that are taken front to back; what is left at the end is a mistake.
pub struct Arguments<'a> {
    words: std::vec::IntoIter<Word<'a>>,
    end: usize,
}

impl<'a> Arguments<'a> {
    /// The words after the request's name.
    pub fn new(name: Word<'a>, words: Vec<Word<'a>>) -> Self {
        let end = words.last().unwrap_or(&name).end();
        Arguments { words: words.into_iter(), end }
    }

    /// The next word.
    pub fn word(&mut self, what: &str) -> Result<Word<'a>, Mistake> {
        self.words.next().ok_or_else(|| self.missing(what))
    }

    /// The next word, a number of 32 bits.
    pub fn u32(&mut self, what: &str) -> Result<u32, Mistake> {
        self.word(what)?.u32(what)
    }

    /// Whether no word is left.
    pub fn is_empty(&self) -> bool {
        self.words.as_slice().is_empty()
    }

    /// The column of the next word, or of the line's end.
    pub fn column(&self) -> usize {
        self.words.as_slice().first().map_or(self.end, |word| word.column)
    }

    /// Takes the next word if it is this one.
    pub fn takes(&mut self, text: &str) -> bool {
        let is_next = self.words.as_slice().first().is_some_and(|word| word.text == text);
        if is_next {
            self.words.next();
        }
        is_next
    }

    /// Cuts the words left at these marks, which become words themselves.
    pub fn cut(&mut self, marks: &[char]) {
        let words: Vec<_> = self.words.by_ref().flat_map(|word| word.cut(marks)).collect();
        self.words = words.into_iter();
    }

    /// All words left.
    pub fn rest(&mut self) -> Vec<Word<'a>> {
        self.words.by_ref().collect()
    }

    /// A mistake at the line's end.
    pub fn missing(&self, what: &str) -> Mistake {
        Mistake { column: self.end, message: format!("missing: {what}") }
    }

    /// The words left as KEY=VALUE, each key one of these and at most once. A key that needs no
    /// value, given as KEY alone, has an empty one.
    pub fn options(&mut self, keys: &[&str], flags: &[&str]) -> Result<Options<'a>, Mistake> {
        let mut values: Vec<(&str, Word)> = Vec::new();
        for word in self.rest() {
            let (key, value) = match word.split_once('=') {
                Some((key, value)) if keys.contains(&key.text) => (key, value),
                None if flags.contains(&word.text) => (word, Word { text: "", ..word }),
                _ => return Err(word.mistake(not_one_of(word, keys, flags))),
            };
            if values.iter().any(|(other, _)| *other == key.text) {
                return Err(key.mistake(format_args!("'{}' is there twice", key.text)));
            }
            values.push((key.text, value));
        }
        Ok(Options { values })
    }

    /// Nothing is left.
    pub fn finish(mut self) -> Result<(), Mistake> {
        match self.words.next() {
            None => Ok(()),
            Some(word) => Err(word.mistake(format_args!("'{}' is one word too many", word.text))),
        }
    }
}

fn not_one_of(word: Word, keys: &[&str], flags: &[&str]) -> String {
    let keys = keys.iter().map(|key| format!("{key}=.."));
    let flags = flags.iter().map(|flag| flag.to_string());
    let all: Vec<_> = keys.chain(flags).collect();
    format!("'{}' is none of {}", word.text, all.join(", "))
}

/// Values by their keys.
pub struct Options<'a> {
    values: Vec<(&'a str, Word<'a>)>,
}

impl<'a> Options<'a> {
    /// The key's value, if it is there.
    pub fn get(&self, key: &str) -> Option<Word<'a>> {
        self.values.iter().find(|(other, _)| *other == key).map(|(_, value)| *value)
    }

    /// The key's value as a number; what is not there is 0.
    pub fn number(&self, key: &str, largest: u64) -> Result<u64, Mistake> {
        self.get(key).map_or(Ok(0), |value| value.number(key, largest))
    }

    /// The key's value as `parse` has it; what is not there is its default.
    pub fn parsed<T: Default>(
        &self,
        key: &str,
        parse: impl Fn(Word<'a>) -> Result<T, Mistake>,
    ) -> Result<T, Mistake> {
        self.get(key).map_or(Ok(T::default()), parse)
    }
}
