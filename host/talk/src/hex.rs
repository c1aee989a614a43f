//! Bytes as hexadecimal text; a long run of equal bytes is written once, as 00*2048.

use crate::words::{Mistake, Word};

/// Runs from this length on are written once.
const LONG_RUN: usize = 8;
/// How often a byte may be repeated.
const MOST: u64 = 4096;

/// The bytes as text.
pub fn text(bytes: &[u8]) -> String {
    let runs = bytes.chunk_by(|a, b| a == b);
    runs.map(run_text).collect::<Vec<_>>().join(" ")
}

/// The bytes as text, in lines of at most so many columns.
pub fn lines(bytes: &[u8], width: usize) -> Vec<String> {
    let text = text(bytes);
    let mut lines = vec![String::new()];
    for word in text.split(' ') {
        let line = lines.last_mut().expect("there is one from the begin");
        match line.len() {
            0 => line.push_str(word),
            length if length + 1 + word.len() <= width => line.extend([" ", word]),
            _ => lines.push(word.to_string()),
        }
    }
    lines
}

fn run_text(run: &[u8]) -> String {
    let byte = format!("{:02X}", run[0]);
    if run.len() < LONG_RUN {
        vec![byte; run.len()].join(" ")
    } else {
        format!("{byte}*{}", run.len())
    }
}

/// The bytes that the words are, each one of the forms 0A, 0A0B and 00*2048.
pub fn parse(words: &[Word]) -> Result<Vec<u8>, Mistake> {
    let mut bytes = Vec::new();
    for &word in words {
        match word.split_once('*') {
            None => bytes.extend(parse_digits(word)?),
            Some((digits, count)) => {
                let count = count.number("count", MOST)?;
                bytes.extend(parse_digits(digits)?.repeat(count as usize));
            }
        }
    }
    Ok(bytes)
}

fn parse_digits(word: Word) -> Result<Vec<u8>, Mistake> {
    let digits: Option<Vec<_>> = word.text.chars().map(|digit| digit.to_digit(16)).collect();
    let digits = digits.filter(|digits| !digits.is_empty() && digits.len() % 2 == 0);
    let Some(digits) = digits else {
        let message = format!("{} is no byte: say two hexadecimal digits", word.quoted());
        return Err(word.mistake(message));
    };
    Ok(digits.chunks(2).map(|pair| (pair[0] * 16 + pair[1]) as u8).collect())
}

#[cfg(test)]
mod tests {
    use super::*;

    #[test]
    fn what_is_written_is_read_back() {
        let bytes = [&[0x80, 0x10][..], &[0; 2048], &[0xFF; 7], &[1]].concat();
        let text = text(&bytes);
        assert_eq!(text, "80 10 00*2048 FF FF FF FF FF FF FF 01");
        assert_eq!(parse(&Word::line(&text).words()), Ok(bytes));
    }

    #[test]
    fn lines_have_their_width() {
        let bytes = [&[1, 2, 3, 4][..], &[0; 15], &[5]].concat();
        assert_eq!(lines(&bytes, 11), ["01 02 03 04", "00*15 05"]);
        assert_eq!(lines(&bytes, 10), ["01 02 03", "04 00*15", "05"]);
        assert_eq!(lines(&bytes[..1], 2), ["01"]);
        assert_eq!(lines(&[], 2), [""]);
    }

    #[test]
    fn a_bad_byte_is_named_with_its_column() {
        let mistake = parse(&Word::line("02 1").words()).unwrap_err();
        assert_eq!((mistake.column, mistake.message.starts_with("'1' is no byte")), (4, true));
        assert!(parse(&Word::line("00*x").words()).is_err());
    }
}
