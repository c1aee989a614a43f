//! Conditions as they are typed: all(enabled tcb, any(group 20, not enabled shutdown)).

use obriska::{Condition, ConditionError, MAX_DEPTH};

use crate::arguments::Arguments;
use crate::sids::{self, Table};
use crate::vocabulary;
use crate::words::{Mistake, Word};

/// What stands around the conditions of a list and between them.
const MARKS: [char; 3] = ['(', ',', ')'];

/// The condition that the words left begin with, which a request can have; it has SIDs by the numbers
/// that they have in the table.
pub fn parse(arguments: &mut Arguments, table: &Table) -> Result<Condition, Mistake> {
    arguments.cut(&MARKS);
    let column = arguments.column();
    let condition = condition(arguments, table, MAX_DEPTH)?;
    match condition.to_bytes() {
        Ok(_) => Ok(condition),
        Err(error) => Err(Mistake { column, message: error.to_string() }),
    }
}

/// A condition that is at most so deep.
fn condition(words: &mut Arguments, table: &Table, depth: usize) -> Result<Condition, Mistake> {
    let kind = words.word("a condition such as 'enabled tcb'")?;
    if depth == 0 {
        return Err(kind.mistake(ConditionError::TooDeep));
    }
    match kind.text {
        "all" => list(kind, words, table, depth - 1).map(Condition::All),
        "any" => list(kind, words, table, depth - 1).map(Condition::Any),
        "not" => condition(words, table, depth - 1).map(Condition::not),
        "enabled" => Ok(Condition::enabled(vocabulary::privilege(words.word("a privilege")?)?)),
        "group" => Ok(Condition::group(table.number(sids::typed(words.word("a SID")?)?)?)),
        _ => Err(kind.mistake(format_args!(
            "{} is no condition: say enabled, group, not, all(..) or any(..)",
            kind.quoted()
        ))),
    }
}

/// The conditions of a list, each at most so deep.
fn list(
    kind: Word,
    words: &mut Arguments,
    table: &Table,
    depth: usize,
) -> Result<Vec<Condition>, Mistake> {
    let opening = words.word("'('")?;
    if opening.text != "(" {
        let message = format!("'{}' is no '(': say {}(..)", opening.text, kind.text);
        return Err(opening.mistake(message));
    }
    let mut conditions = Vec::new();
    if words.takes(")") {
        return Ok(conditions);
    }
    loop {
        conditions.push(condition(words, table, depth)?);
        let mark = words.word("',' or ')'")?;
        match mark.text {
            "," => (),
            ")" => return Ok(conditions),
            _ => return Err(mark.mistake(format_args!("'{}' is no ',' or ')'", mark.text))),
        }
    }
}

#[cfg(test)]
mod tests {
    use obriska::Broker;

    use super::*;

    /// The bytes of a condition that is the whole text.
    fn parse(text: &str) -> Result<Vec<u8>, Mistake> {
        let words = Word::line(text).words();
        let mut arguments = Arguments::new(Word::line(""), words);
        let condition = super::parse(&mut arguments, &Table::of(&Broker::start()))?;
        arguments.finish().map(|()| condition.to_bytes().expect("it fits"))
    }

    fn mistake(text: &str) -> (usize, String) {
        let mistake = parse(text).expect_err(text);
        (mistake.column, mistake.message)
    }

    #[test]
    fn what_is_printed_is_read() {
        let conditions = [
            Condition::all([]),
            Condition::not(Condition::any([])),
            Condition::group(18),
            Condition::group(u32::MAX),
            Condition::enabled(37),
            Condition::all([
                Condition::enabled(7),
                Condition::any([Condition::group(20), Condition::not(Condition::enabled(19))]),
            ]),
        ];
        for condition in conditions {
            assert_eq!(parse(&condition.to_string()), Ok(condition.to_bytes().expect("it fits")));
        }
    }

    #[test]
    fn blanks_and_names_are_as_one_likes() {
        let texts = [
            "all(enabled tcb,group SYSTEM)",
            " all ( enabled 0x7 , group 18 ) ",
            "all(enabled 7, group S-1-5-18)",
        ];
        for text in texts {
            assert_eq!(parse(text), Ok(vec![1, 2, 4, 7, 5, 18]));
        }
        assert_eq!(parse("not not enabled create-token"), Ok(vec![3, 3, 4, 2]));
    }

    #[test]
    fn a_mistake_is_named_with_its_column() {
        let no_condition = "is no condition: say enabled, group, not, all(..) or any(..)";
        assert_eq!(mistake("tcb"), (1, format!("'tcb' {no_condition}")));
        assert_eq!(mistake("all(group 20,)"), (14, format!("')' {no_condition}")));
        assert_eq!(mistake("not"), (4, "missing: a condition such as 'enabled tcb'".into()));
        assert_eq!(mistake("all group 20"), (5, "'group' is no '(': say all(..)".into()));
        assert_eq!(mistake("any"), (4, "missing: '('".into()));
        assert_eq!(mistake("any(all()"), (10, "missing: ',' or ')'".into()));
        assert_eq!(mistake("any(all() any())"), (11, "'any' is no ',' or ')'".into()));
        assert_eq!(mistake("any())"), (6, "')' is one word too many".into()));
        assert_eq!(mistake("group 20, group 30"), (9, "',' is one word too many".into()));
        assert_eq!(mistake("enabled"), (8, "missing: a privilege".into()));
        assert_eq!(mistake("group"), (6, "missing: a SID".into()));
        assert_eq!(
            mistake("all(enabled tbc)"),
            (13, "'tbc' is no privilege: say its name or number".into())
        );
        assert_eq!(mistake("group 4294967296"), (7, "4294967296 is over 4294967295".into()));
    }

    #[test]
    fn what_no_request_holds_is_a_mistake() {
        assert_eq!(parse("not not not not not not not all()").map(|bytes| bytes.len()), Ok(9));
        let ninth = (33, "the condition is over 8 deep".into());
        assert_eq!(mistake("not not not not not not not not all()"), ninth);
        assert_eq!(mistake(&"not ".repeat(100_000)).0, 33);
        let groups = vec!["group 1"; 1022].join(",");
        let long = format!("  any({groups})");
        assert_eq!(mistake(&long), (3, "the request is over 2048 bytes".into()));
    }
}
