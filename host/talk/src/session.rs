//! A session: lines in, what the broker says out.

use std::collections::VecDeque;
use std::fs;
use std::io::{self, Write};

use obriska::Broker;

use crate::answer;
use crate::hex;
use crate::line::Command;
use crate::reports::Reports;
use crate::sids::Table;
use crate::state;
use crate::token;
use crate::words::{Mistake, Word};

/// The columns of a line: those before the bytes beside the words, what is between, and the bytes.
const LINE_WIDTH: usize = 80;
const WORDS_WIDTH: usize = 42;
const BETWEEN: usize = " > ".len();
const BYTES_WIDTH: usize = LINE_WIDTH - BETWEEN - WORDS_WIDTH;

/// What stands before a line that is said; twice before what does not fit one line.
const INDENT: &str = "   ";

/// A broker, what it has reported, and how to show what it says.
pub struct Session {
    broker: Broker,
    reports: Reports,
    /// The lines that the last command said and that were not expected yet.
    said: VecDeque<String>,
    shows_bytes: bool,
}

/// What comes after a command.
pub enum Next {
    /// The next line.
    On,
    /// Nothing.
    End,
    /// The next line, but something was not as the line has it.
    Wrong(Mistake),
}

impl Session {
    /// A broker at its start.
    pub fn new(shows_bytes: bool) -> Self {
        let (reports, said) = Default::default();
        Session { broker: Broker::start(), reports, said, shows_bytes }
    }

    /// What there is to put back.
    pub fn reports(&self) -> &Reports {
        &self.reports
    }

    /// The SID table as it is now.
    pub fn table(&self) -> Table {
        Table::of(&self.broker)
    }

    /// A script's line, with the bytes that it sends.
    pub fn echo(
        &self,
        line: &str,
        command: Option<&Command>,
        out: &mut impl Write,
    ) -> io::Result<()> {
        match command {
            Some(Command::Send { bytes, .. }) => self.beside(line, '>', bytes, out),
            _ => writeln!(out, "{line}"),
        }
    }

    /// The bytes that a typed line sends, if bytes are shown.
    pub fn echo_bytes(&self, command: Option<&Command>, out: &mut impl Write) -> io::Result<()> {
        match command {
            Some(Command::Send { bytes, .. }) if self.shows_bytes => {
                self.beside("", '>', bytes, out)
            }
            _ => Ok(()),
        }
    }

    /// Carries a command out.
    pub fn run(&mut self, command: &Command, out: &mut impl Write) -> io::Result<Next> {
        if !matches!(command, Command::Expect(_)) {
            self.forget();
        }
        match command {
            Command::Send { station, bytes } => self.send(*station, bytes, out)?,
            Command::Reconnect { station } => self.reconnect(*station, out)?,
            Command::State => self.say_tables(state::lines(&self.broker), out)?,
            Command::Token(number) => self.token(*number, out)?,
            Command::Expect(words) => return Ok(self.expect(*words)),
            Command::Save(file) => return self.save(*file, out),
            Command::Load(file) => return self.load(*file, out),
            Command::Help => write!(out, "{}", include_str!("help.txt"))?,
            Command::Quit => return Ok(Next::End),
        }
        Ok(Next::On)
    }

    /// Nothing was said that could be expected: the line was bad, or a new one begins.
    pub fn forget(&mut self) {
        self.said.clear();
    }

    /// Says a line, which can be expected then.
    fn say(&mut self, line: &str, out: &mut impl Write) -> io::Result<()> {
        self.said.push_back(line.to_string());
        self.printed(line).iter().try_for_each(|line| writeln!(out, "{line}"))
    }

    /// Says the lines of tables, as they are; those that are empty can not be expected.
    fn say_tables(&mut self, lines: Vec<String>, out: &mut impl Write) -> io::Result<()> {
        for line in lines {
            if line.is_empty() {
                writeln!(out)?;
            } else {
                writeln!(out, "{INDENT}{line}")?;
                self.said.push_back(line);
            }
        }
        Ok(())
    }

    /// Says an answer, its bytes beside the first line.
    fn say_answer(
        &mut self,
        words: &[String],
        bytes: &[u8],
        out: &mut impl Write,
    ) -> io::Result<()> {
        let (first, others) = words.split_first().expect("there is something to say");
        self.said.push_back(first.clone());
        let mut printed = self.printed(first);
        let last = printed.pop().unwrap_or_default();
        printed.iter().try_for_each(|line| writeln!(out, "{line}"))?;
        self.beside(&last, '<', bytes, out)?;
        others.iter().try_for_each(|line| self.say(line, out))
    }

    /// A line as it is printed: several, of the columns that there are, where bytes are shown.
    fn printed(&self, line: &str) -> Vec<String> {
        let width = if self.shows_bytes { LINE_WIDTH } else { usize::MAX };
        let mut words = line.split(' ');
        let mut lines = vec![format!("{INDENT}{}", words.next().unwrap_or_default())];
        for word in words {
            let last = lines.last_mut().expect("there is one from the begin");
            if last.chars().count() + 1 + word.chars().count() <= width {
                last.extend([" ", word]);
            } else {
                let next = broken(last, word, width);
                lines.push(next);
            }
        }
        lines
    }

    /// Takes the next line of what was said, which has to begin with these words.
    fn expect(&mut self, expected: Word) -> Next {
        let words = single_blanks(expected.text);
        let said = self.said.pop_front().map(|said| single_blanks(&said));
        if said.as_ref().is_some_and(|said| begins(said, &words)) {
            return Next::On;
        }
        let got = said.map_or("nothing".to_string(), |said| format!("'{said}'"));
        Next::Wrong(expected.mistake(format_args!("expected '{words}', got {got}")))
    }

    fn reconnect(&mut self, station: u32, out: &mut impl Write) -> io::Result<()> {
        match self.broker.reconnect(station) {
            Ok(()) => self.say("reconnected", out),
            Err(refusal) => self.say(&refusal.to_string(), out),
        }
    }

    fn token(&mut self, number: u64, out: &mut impl Write) -> io::Result<()> {
        match self.broker.token(number) {
            Some(token) => {
                let lines = token::lines(&token, &self.table());
                lines.iter().try_for_each(|line| self.say(line, out))
            }
            None => self.say(&format!("no token {number}"), out),
        }
    }

    fn save(&mut self, file: Word, out: &mut impl Write) -> io::Result<Next> {
        if let Err(error) = fs::write(file.text, self.broker.to_bytes()) {
            return Ok(unusable(file, &error));
        }
        self.say("saved", out)?;
        Ok(Next::On)
    }

    /// Goes on with what the file has kept, if that is valid memory; else with what there is.
    fn load(&mut self, file: Word, out: &mut impl Write) -> io::Result<Next> {
        let bytes = match fs::read(file.text) {
            Ok(bytes) => bytes,
            Err(error) => return Ok(unusable(file, &error)),
        };
        match Broker::from_bytes(&bytes) {
            Ok(broker) => {
                self.broker = broker;
                self.reports = Reports::default();
                self.say("loaded", out)?;
            }
            Err(error) => self.say(&error.to_string(), out)?,
        }
        Ok(Next::On)
    }

    fn send(&mut self, station: u32, bytes: &[u8], out: &mut impl Write) -> io::Result<()> {
        let stations = self.broker.stations();
        let pending = stations.get(station as usize).map_or(&[][..], |s| &s.pending);
        let stream = [pending, bytes].concat();
        let answers = match self.broker.feed(station, bytes) {
            Ok(answers) => answers,
            Err(refusal) => return self.say(&refusal.to_string(), out),
        };
        let requests = answer::frames(&stream);
        let table = self.table();
        for (index, answer) in answers.iter().enumerate() {
            let request = requests.get(index).copied().unwrap_or_default();
            self.reports.take(station, request, answer);
            let words = answer::words(request, answer, &table);
            self.say_answer(&words, answer.bytes(), out)?;
        }
        let after = &self.broker.stations()[station as usize];
        if !after.pending.is_empty() {
            self.say(&format!("no answer yet: {}", state::stream(after)), out)?;
        } else if answers.is_empty() {
            self.say(&format!("no answer: the stream is {}", state::stream(after)), out)?;
        }
        Ok(())
    }

    /// Words, and the bytes if those are shown: beside the words, or below where they don't fit.
    fn beside(&self, words: &str, way: char, bytes: &[u8], out: &mut impl Write) -> io::Result<()> {
        if !self.shows_bytes {
            return writeln!(out, "{words}");
        }
        let lines = hex::lines(bytes, BYTES_WIDTH);
        let width = match &lines[..] {
            [line] => LINE_WIDTH - BETWEEN - line.len(),
            _ => WORDS_WIDTH,
        };
        let mut before = (words, way);
        if words.chars().count() > width {
            writeln!(out, "{words}")?;
            before.0 = "";
        }
        for line in lines {
            let (words, way) = before;
            writeln!(out, "{words:WORDS_WIDTH$} {way} {line}")?;
            before = ("", ' ');
        }
        Ok(())
    }
}

/// Breaks a full line before its next word, or after its last comma if the rest fits the next line;
/// gives that.
fn broken(line: &mut String, word: &str, width: usize) -> String {
    let comma = line.rfind(',').map_or(line.len(), |comma| comma + 1);
    let rest = format!("{} {word}", &line[comma..]);
    let next = format!("{INDENT}{INDENT}{}", rest.trim_start());
    if next.chars().count() > width {
        return format!("{INDENT}{INDENT}{word}");
    }
    line.truncate(comma);
    next
}

/// The words with one blank between them.
fn single_blanks(text: &str) -> String {
    text.split_whitespace().collect::<Vec<_>>().join(" ")
}

/// Whether the text begins with these words, the last one whole.
fn begins(text: &str, words: &str) -> bool {
    let goes_on = |next: char| next.is_alphanumeric() || next == '-';
    text.strip_prefix(words).is_some_and(|rest| !rest.starts_with(goes_on))
}

fn unusable(file: Word, error: &io::Error) -> Next {
    Next::Wrong(file.mistake(format_args!("{}: {error}", file.quoted())))
}

#[cfg(test)]
mod tests {
    use super::*;

    #[test]
    fn a_full_line_is_broken_after_a_comma_or_before_a_word() {
        let mut session = Session::new(true);
        let long = ["was:", &"x".repeat(60), "one 1,", "two 2"].join(" ");
        let first = ["   was:", &"x".repeat(60), "one 1,"].join(" ");
        assert_eq!(session.printed(&long), [&first, "      two 2"]);
        let (bytes, many) = (vec!["0A"; 60].join(" "), vec!["0A"; 24].join(" "));
        let lines = session.printed(&format!("a, b {bytes}"));
        assert_eq!(lines[0], format!("   a, b {many}"));
        assert!(lines.len() == 3 && lines.iter().all(|line| line.len() <= 80));
        session.shows_bytes = false;
        assert_eq!(session.printed(&long), [format!("   {long}")]);
    }

    #[test]
    fn an_answer_begins_with_whole_words() {
        let refused = "refused 4: the privilege is not held";
        for words in ["refused", "refused 4", "refused 4:", "refused 4: the", refused] {
            assert!(begins(refused, words), "{words}");
        }
        for words in ["refuse", "refused 4: th", "refused 5", "4"] {
            assert!(!begins(refused, words), "{words}");
        }
        assert!(!begins("handle 10", "handle 1"));
        assert!(!begins("was enabled-by-default", "was enabled"));
    }
}
