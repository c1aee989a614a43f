//! SIDs as they are typed and printed: by their numbers in the broker's table, or themselves.

use std::collections::BTreeMap;

use obriska::codec::{ReadError, Sid};
use obriska::{Broker, SIDS};

use crate::vocabulary;
use crate::words::{Mistake, Word};

/// The broker's SID table.
pub struct Table(BTreeMap<u32, Sid>);

impl Table {
    /// As it is now.
    pub fn of(broker: &Broker) -> Self {
        Table(broker.sids().collect())
    }

    /// Whether a SID has this number.
    pub fn has(&self, number: u32) -> bool {
        self.0.contains_key(&number)
    }

    /// A number with its SID, if it has one.
    pub fn text(&self, number: u32) -> String {
        match self.0.get(&number) {
            Some(sid) => format!("{number} ({sid})"),
            None => number.to_string(),
        }
    }

    /// Each number and its SID, upward.
    pub fn rows(&self) -> Vec<Vec<String>> {
        self.0.iter().map(|(number, sid)| vec![number.to_string(), sid.to_string()]).collect()
    }

    /// How much there is in it.
    pub fn size_text(&self) -> String {
        format!("SIDs {} of {SIDS}", self.0.len())
    }

    /// The SID that was typed, itself or by its number.
    pub fn sid(&self, typed: Typed) -> Result<Sid, Mistake> {
        match typed {
            Typed::Sid(_, sid) => Ok(sid),
            Typed::Number(word, number) => self.0.get(&number).copied().ok_or_else(|| {
                word.mistake(format_args!(
                    "{number} is not in the SID table: say the SID, such as S-1-5-21-1000"
                ))
            }),
        }
    }

    /// The number that was typed, itself or by its SID; it need not be in the table.
    pub fn number(&self, typed: Typed) -> Result<u32, Mistake> {
        match typed {
            Typed::Number(_, number) => Ok(number),
            Typed::Sid(word, sid) => {
                let found = self.0.iter().find(|(_, other)| **other == sid);
                found.map(|(number, _)| *number).ok_or_else(|| {
                    word.mistake(format_args!("{sid} is not in the SID table: no group has it"))
                })
            }
        }
    }
}

/// What was typed for a SID, and where.
#[derive(Clone, Copy, Debug, PartialEq, Eq)]
pub enum Typed<'a> {
    /// A number, which may be in the table or not.
    Number(Word<'a>, u32),
    /// A SID such as S-1-5-18.
    Sid(Word<'a>, Sid),
}

impl Typed<'_> {
    /// The number, if it is one.
    pub fn as_number(self) -> Option<u32> {
        match self {
            Typed::Number(_, number) => Some(number),
            Typed::Sid(..) => None,
        }
    }
}

/// A SID such as S-1-5-18, a number, or one of the few names.
pub fn typed(word: Word) -> Result<Typed, Mistake> {
    let begins = |begin| word.text.get(..2).is_some_and(|text| text.eq_ignore_ascii_case(begin));
    if !begins("S-") {
        return vocabulary::sid(word).map(|number| Typed::Number(word, number));
    }
    match word.text.parse() {
        Ok(sid) => Ok(Typed::Sid(word, sid)),
        Err(ReadError { place, expected, .. }) => {
            let message = format!("'{}' is no SID: expected {expected}", word.text);
            Err(Mistake { column: word.column + place, message })
        }
    }
}

#[cfg(test)]
mod tests {
    use super::*;

    fn mistake(text: &str) -> (usize, String) {
        let mistake = typed(Word::line(text)).expect_err(text);
        (mistake.column, mistake.message)
    }

    #[test]
    fn a_sid_is_typed_itself_by_its_number_or_by_a_name() {
        let number = |text| typed(Word::line(text)).map(Typed::as_number);
        assert_eq!(number("32"), Ok(Some(32)));
        assert_eq!(number("system"), Ok(Some(18)));
        assert_eq!(number("S-1-5-18"), Ok(None));
        let word = Word::line("s-1-5-18");
        assert_eq!(typed(word), Ok(Typed::Sid(word, Sid::SYSTEM)));
    }

    #[test]
    fn what_is_no_sid_is_named_with_its_column() {
        assert_eq!(mistake("S-1-5-x"), (7, "'S-1-5-x' is no SID: expected a sub-authority".into()));
        assert_eq!(mistake("S-2-5-18"), (1, "'S-2-5-18' is no SID: expected S-1-".into()));
        assert_eq!(mistake("S-1-").0, 5);
        assert_eq!(
            mistake("bob"),
            (1, "'bob' is no SID: say S-1-5-18, its number, or Anonymous, SYSTEM".into())
        );
    }

    #[test]
    fn the_table_tells_numbers_and_sids() {
        let table = Table::of(&Broker::start());
        assert_eq!([18, 32].map(|number| table.text(number)), ["18 (S-1-5-18)", "32"]);
        assert_eq!(table.rows(), [["7", "S-1-5-7"], ["18", "S-1-5-18"]]);
        assert_eq!(table.size_text(), "SIDs 2 of 256");
        assert!(table.has(7) && !table.has(8));
        let typed = |text| super::typed(Word::line(text)).expect(text);
        assert_eq!(table.sid(typed("7")), Ok(Sid::ANONYMOUS));
        assert_eq!(table.number(typed("S-1-5-7")), Ok(7));
        assert_eq!(table.number(typed("8")), Ok(8));
        let message = table.sid(typed("8")).expect_err("it is not there").message;
        assert_eq!(message, "8 is not in the SID table: say the SID, such as S-1-5-21-1000");
        let message = table.number(typed("S-1-5-8")).expect_err("it is not there").message;
        assert_eq!(message, "S-1-5-8 is not in the SID table: no group has it");
    }
}
