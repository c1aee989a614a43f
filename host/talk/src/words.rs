//! The words of a line, each with its column, and what is wrong with a line.

use std::fmt;

/// What is wrong with a line, and where: columns are counted from 1.
#[derive(Clone, Debug, PartialEq, Eq)]
pub struct Mistake {
    pub column: usize,
    pub message: String,
}

/// A part of a line.
#[derive(Clone, Copy, Debug, PartialEq, Eq)]
pub struct Word<'a> {
    pub text: &'a str,
    pub column: usize,
}

impl<'a> Word<'a> {
    /// A whole line.
    pub fn line(text: &'a str) -> Self {
        Word { text, column: 1 }
    }

    /// The part from byte `start` to byte `end`.
    fn part(self, start: usize, end: usize) -> Word<'a> {
        let column = self.column + self.text[..start].chars().count();
        Word { text: &self.text[start..end], column }
    }

    /// Without the blanks around it.
    pub fn trimmed(self) -> Word<'a> {
        let start = self.text.len() - self.text.trim_start().len();
        self.part(start, start + self.text.trim().len())
    }

    /// The parts before and after the first separator.
    pub fn split_once(self, separator: char) -> Option<(Word<'a>, Word<'a>)> {
        let at = self.text.find(separator)?;
        let after = at + separator.len_utf8();
        Some((self.part(0, at), self.part(after, self.text.len())))
    }

    /// The parts between the separators.
    pub fn split(self, separator: char) -> Vec<Word<'a>> {
        let mut parts = Vec::new();
        let mut rest = self;
        while let Some((part, after)) = rest.split_once(separator) {
            parts.push(part);
            rest = after;
        }
        parts.push(rest);
        parts
    }

    /// The words between blanks.
    pub fn words(self) -> Vec<Word<'a>> {
        let mut words = Vec::new();
        let mut rest = self.trimmed();
        while !rest.text.is_empty() {
            let (word, after) = rest.first();
            words.push(word);
            rest = after;
        }
        words
    }

    /// The first word, and what is after the blanks that follow it.
    pub fn first(self) -> (Word<'a>, Word<'a>) {
        let all = self.trimmed();
        let end = all.text.find(char::is_whitespace).unwrap_or(all.text.len());
        (all.part(0, end), all.part(end, all.text.len()).trimmed())
    }

    /// The word cut at these marks, which are parts themselves.
    pub fn cut(self, marks: &[char]) -> Vec<Word<'a>> {
        let mut parts = Vec::new();
        let mut rest = self;
        while let Some(first) = rest.text.chars().next() {
            let end = match rest.text.find(marks) {
                Some(0) => first.len_utf8(),
                Some(mark) => mark,
                None => rest.text.len(),
            };
            parts.push(rest.part(0, end));
            rest = rest.part(end, rest.text.len());
        }
        parts
    }

    /// The line without its comment.
    pub fn without_comment(self) -> Word<'a> {
        self.split_once('#').map_or(self, |(before, _)| before)
    }

    /// Where the word ends: the column after it.
    pub fn end(self) -> usize {
        self.column + self.text.chars().count()
    }

    /// A mistake at this word.
    pub fn mistake(self, message: impl fmt::Display) -> Mistake {
        Mistake { column: self.column, message: message.to_string() }
    }

    /// The number, decimal or with 0x hexadecimal, if the word looks like one.
    pub fn as_number(self) -> Option<Result<u64, Mistake>> {
        let (digits, radix) = match self.text.strip_prefix("0x") {
            Some(digits) => (digits, 16),
            None => (self.text, 10),
        };
        if digits.is_empty() || !digits.chars().all(|digit| digit.is_digit(radix)) {
            return None;
        }
        let too_large = |_| self.mistake(format_args!("{} is over {}", self.text, u64::MAX));
        Some(u64::from_str_radix(digits, radix).map_err(too_large))
    }

    /// The number that this word is, at most `largest`.
    pub fn number(self, what: &str, largest: u64) -> Result<u64, Mistake> {
        let Some(number) = self.as_number() else {
            return Err(self.mistake(format_args!("{} is no {what}: say a number", self.quoted())));
        };
        let number = number?;
        if number > largest {
            return Err(self.mistake(format_args!("{} is over {largest}", self.text)));
        }
        Ok(number)
    }

    /// The number of 32 bits that this word is.
    pub fn u32(self, what: &str) -> Result<u32, Mistake> {
        self.number(what, u32::MAX.into()).map(|number| number as u32)
    }

    /// The word in quotes, or 'nothing'.
    pub fn quoted(self) -> String {
        if self.text.is_empty() {
            "nothing".to_string()
        } else {
            format!("'{}'", self.text)
        }
    }
}

#[cfg(test)]
mod tests {
    use super::*;

    fn columns(words: &[Word]) -> Vec<(String, usize)> {
        words.iter().map(|word| (word.text.to_string(), word.column)).collect()
    }

    #[test]
    fn words_know_their_columns() {
        let words = Word::line("  ä: open\tquery,x").words();
        assert_eq!(columns(&words), [("ä:".into(), 3), ("open".into(), 6), ("query,x".into(), 11)]);
        assert_eq!(columns(&words[2].split(',')), [("query".into(), 11), ("x".into(), 17)]);
        assert_eq!(words[2].end(), 18);
        assert!(Word::line(" \t").words().is_empty());
    }

    #[test]
    fn a_word_is_cut_at_marks() {
        let parts = Word { text: "ä(b,c))", column: 3 }.cut(&['(', ',', ')']);
        let expected = [("ä", 3), ("(", 4), ("b", 5), (",", 6), ("c", 7), (")", 8), (")", 9)];
        assert_eq!(columns(&parts), expected.map(|(text, column)| (text.to_string(), column)));
        assert!(Word::line("").cut(&['(']).is_empty());
    }

    #[test]
    fn numbers_are_decimal_or_hexadecimal() {
        let number = |text| Word::line(text).number("mask", 0x1EF);
        assert_eq!(number("0x1ef"), Ok(0x1EF));
        assert_eq!(number("12"), Ok(12));
        assert_eq!(number("496").unwrap_err().message, "496 is over 495");
        assert_eq!(number("x").unwrap_err().message, "'x' is no mask: say a number");
        assert_eq!(number("").unwrap_err().message, "nothing is no mask: say a number");
        assert!(number("99999999999999999999").unwrap_err().message.contains("is over 18446"));
    }

    #[test]
    fn a_comment_ends_the_line() {
        assert_eq!(Word::line("state # all").without_comment().text, "state ");
    }
}
