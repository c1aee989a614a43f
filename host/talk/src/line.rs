//! A line: what it asks for, or what is wrong with it.

use crate::arguments::Arguments;
use crate::hex;
use crate::reports::Reports;
use crate::request;
use crate::sids::Table;
use crate::words::{Mistake, Word};

/// What a line asks for.
#[derive(Clone, Debug, PartialEq, Eq)]
pub enum Command<'a> {
    /// Bytes for a station: a request, or raw ones.
    Send { station: u32, bytes: Vec<u8> },
    /// Reconnects a station.
    Reconnect { station: u32 },
    /// Shows what the broker keeps.
    State,
    /// Shows all of a token.
    Token(u64),
    /// The words that the next line of what was said has to begin with.
    Expect(Word<'a>),
    /// Writes what the broker keeps to a file.
    Save(Word<'a>),
    /// Goes on with what a file has kept.
    Load(Word<'a>),
    /// Lists the requests.
    Help,
    /// Ends the session.
    Quit,
}

/// The line's command, given the reports so far and the SIDs that there are; none in an empty line
/// or a comment.
pub fn parse<'a>(
    line: &'a str,
    reports: &Reports,
    table: &Table,
) -> Result<Option<Command<'a>>, Mistake> {
    let line = Word::line(line).without_comment().trimmed();
    if line.text.is_empty() {
        return Ok(None);
    }
    let (name, rest) = line.first();
    if let Some(command) = alone(name, rest)? {
        return Ok(Some(command));
    }
    match line.split_once(':') {
        Some((station, rest)) => at_station(station.trimmed(), rest, reports, table).map(Some),
        None => Err(line.mistake("no station: say '0: open query', or state, help or quit")),
    }
}

/// A line without a station, if its first word is one of these.
fn alone<'a>(name: Word<'a>, rest: Word<'a>) -> Result<Option<Command<'a>>, Mistake> {
    let mut arguments = Arguments::new(name, rest.words());
    let command = match name.text {
        "state" => Command::State,
        "token" => Command::Token(arguments.word("number")?.number("token", u64::MAX)?),
        "expect" => Command::Expect(whole(&mut arguments, rest, "an answer such as 'refused 4'")?),
        "save" => Command::Save(whole(&mut arguments, rest, "a file's name")?),
        "load" => Command::Load(whole(&mut arguments, rest, "a file's name")?),
        "help" => Command::Help,
        "quit" | "exit" => Command::Quit,
        _ => return Ok(None),
    };
    arguments.finish()?;
    Ok(Some(command))
}

/// All that is left of the line, which is not nothing.
fn whole<'a>(arguments: &mut Arguments, rest: Word<'a>, what: &str) -> Result<Word<'a>, Mistake> {
    if arguments.rest().is_empty() {
        return Err(arguments.missing(what));
    }
    Ok(rest)
}

/// A line for a station.
fn at_station<'a>(
    station: Word<'a>,
    rest: Word<'a>,
    reports: &Reports,
    table: &Table,
) -> Result<Command<'a>, Mistake> {
    let station = station.u32("station")?;
    let mut words = rest.words();
    if words.is_empty() {
        return Err(rest.mistake("missing: a request"));
    }
    let name = words.remove(0);
    match name.text {
        "reconnect" => {
            Arguments::new(name, words).finish()?;
            return Ok(Command::Reconnect { station });
        }
        "bytes" if words.is_empty() => {
            return Err(Arguments::new(name, words).missing("the bytes"));
        }
        "bytes" => return Ok(Command::Send { station, bytes: hex::parse(&words)? }),
        "restore" => {
            let bytes = reports.put_back(station, name, Arguments::new(name, words))?;
            return Ok(Command::Send { station, bytes });
        }
        _ => (),
    }
    let bytes = request::frame(name, Arguments::new(name, words), table).ok_or_else(|| {
        name.mistake(format_args!("'{}' is no request; 'help' lists them", name.text))
    })??;
    Ok(Command::Send { station, bytes })
}

#[cfg(test)]
mod tests {
    use obriska::Broker;

    use super::*;

    /// A line at the start.
    fn parse(line: &str) -> Result<Option<Command<'_>>, Mistake> {
        super::parse(line, &Reports::default(), &Table::of(&Broker::start()))
    }

    /// The bytes that a line sends at station 0, as text.
    fn sent(line: &str) -> String {
        match parse(line) {
            Ok(Some(Command::Send { station: 0, bytes })) => hex::text(&bytes),
            other => panic!("{line}: {other:?}"),
        }
    }

    fn mistake(line: &str) -> (usize, String) {
        let mistake = parse(line).expect_err(line);
        (mistake.column, mistake.message)
    }

    #[test]
    fn the_first_minute_has_its_bytes() {
        assert_eq!(sent("0: open query,adjust-privileges"), "02 01 28");
        assert_eq!(sent("0: privileges 1 tcb=disable"), "05 05 01 01 07 00");
        assert_eq!(sent("0: query 1 privileges capacity=64"), "04 04 01 03 40");
        assert_eq!(sent("0: bytes 81 10"), "81 10");
    }

    #[test]
    fn every_request_has_its_layout() {
        assert_eq!(sent("0: open all"), "03 01 EF 03");
        assert_eq!(sent("0: close 300"), "03 02 AC 02");
        assert_eq!(
            sent("0: create user=1000 session=5 integrity=medium present=tcb,create-token default=tcb groups=545:mandatory+enabled-by-default,SYSTEM"),
            "10 03 E8 07 05 80 40 84 01 80 01 02 A1 04 03 12 00"
        );
        assert_eq!(sent("0: create user=1"), "07 03 01 00 00 00 00 00");
        assert_eq!(
            sent("0: create user=S-1-5-21-1000 session=5 groups=S-1-1:owner,SYSTEM:0x2"),
            "2C 0E 01 02 00 00 00 00 00 05 15 00 00 00 E8 03 00 00 05 00 00 00 02 01 00 00 00 00 00 00 01 08 01 01 00 00 00 00 00 05 12 00 00 00 02"
        );
        assert_eq!(
            sent("0: create user=18 groups=S-1-0"),
            "1B 0E 01 01 00 00 00 00 00 05 12 00 00 00 00 00 00 00 01 01 00*8"
        );
        assert_eq!(sent("0: query 1 user"), "05 04 01 01 80 08");
        assert_eq!(sent("0: privileges 2 reset"), "09 05 02 01 00 80 80 80 80 08");
        assert_eq!(sent("0: privileges 2 2=enable debug=remove"), "07 05 02 02 02 02 14 04");
        assert_eq!(sent("0: groups 1 0=enable 3=disable"), "07 06 01 02 00 01 03 00");
        assert_eq!(sent("0: groups 1 reset"), "09 06 01 01 FF FF FF FF 0F 00");
        assert_eq!(sent("0: scope 1 5"), "03 07 01 05");
        assert_eq!(sent("0: default 1"), "0A 08 01 FF FF 03 FF FF 03 00 00");
        assert_eq!(sent("0: default 1 owner=2 group=0 dacl=0AFF"), "08 08 01 02 00 01 02 0A FF");
        assert_eq!(sent("0: default 1 owner=0 group=0 dacl=none"), "06 08 01 00 00 01 00");
        assert_eq!(
            sent("0: duplicate 1 type=impersonation level=identification rights=query"),
            "05 09 01 02 01 08"
        );
        assert_eq!(
            sent("0: restrict 1 write-restricted remove=create-token deny=0,2 sids=77"),
            "09 0A 01 01 04 02 01 00 02 4D"
        );
        assert_eq!(sent("0: restrict 1"), "06 0A 01 00 00 00 00");
        assert_eq!(
            sent("0: restrict 1 deny=2 sids=7,S-1-0x00000000000A"),
            "1B 0F 01 00 00 01 02 02 01 01 00 00 00 00 00 05 07 00 00 00 01 00 00 00 00 00 00 0A"
        );
        assert_eq!(sent("0: may 1 all(group S-1-5-7, group 32)"), "08 12 01 01 02 05 07 05 20");
        assert_eq!(sent("0: install 2"), "02 0B 02");
        assert_eq!(sent("0: impersonate 300"), "03 0C AC 02");
        assert_eq!(sent("0: revert"), "01 0D");
        assert_eq!(sent("0: link 3 300 session=7"), "05 10 03 AC 02 07");
        assert_eq!(sent("0: link 1 2 session=0xFFFFFFFFFFFFFFFF"), "0D 10 01 02 FF*9 01");
        assert_eq!(sent("0: linked 300"), "03 11 AC 02");
        assert_eq!(
            sent("0: may 1 all(enabled tcb, any(group 20, not enabled shutdown))"),
            "0D 12 01 01 02 04 07 02 02 05 14 03 04 13"
        );
        assert_eq!(sent("0: may 300 all()"), "05 12 AC 02 01 00");
    }

    #[test]
    fn other_lines() {
        assert_eq!(parse(" # nothing"), Ok(None));
        assert_eq!(parse(""), Ok(None));
        assert_eq!(parse("state # all"), Ok(Some(Command::State)));
        assert_eq!(parse("help"), Ok(Some(Command::Help)));
        assert_eq!(parse("quit"), Ok(Some(Command::Quit)));
        assert_eq!(parse("exit"), Ok(Some(Command::Quit)));
        assert_eq!(parse("token 0x10"), Ok(Some(Command::Token(16))));
        let word = |text, column| Word { text, column };
        let words = word("refused 4: the", 9);
        assert_eq!(parse("expect  refused 4: the # why"), Ok(Some(Command::Expect(words))));
        assert_eq!(parse("save a b"), Ok(Some(Command::Save(word("a b", 6)))));
        assert_eq!(parse(" load c:d"), Ok(Some(Command::Load(word("c:d", 7)))));
        assert_eq!(parse("7:reconnect"), Ok(Some(Command::Reconnect { station: 7 })));
        let bytes = vec![2, 1, 0x28];
        assert_eq!(parse("3: bytes 02 0128"), Ok(Some(Command::Send { station: 3, bytes })));
    }

    #[test]
    fn a_mistake_is_named_with_its_column() {
        assert_eq!(mistake("open query").0, 1);
        assert_eq!(mistake("x: open query"), (1, "'x' is no station: say a number".into()));
        assert_eq!(mistake("0:"), (3, "missing: a request".into()));
        assert_eq!(mistake("0: opne query"), (4, "'opne' is no request; 'help' lists them".into()));
        assert_eq!(mistake("0: open"), (8, "missing: rights".into()));
        assert_eq!(mistake("0: open query,quary").0, 15);
        assert_eq!(mistake("0: close 1 2"), (12, "'2' is one word too many".into()));
        assert_eq!(mistake("0: impersonate"), (15, "missing: handle".into()));
        assert_eq!(mistake("0: revert 3"), (11, "'3' is one word too many".into()));
        assert_eq!(mistake("0: link"), (8, "missing: the elevated token's handle".into()));
        assert_eq!(mistake("0: link 3"), (10, "missing: the filtered token's handle".into()));
        assert_eq!(mistake("0: link 3 4"), (12, "missing: session=..".into()));
        assert_eq!(mistake("0: link 3 4 7"), (13, "'7' is none of session=..".into()));
        assert_eq!(mistake("0: linked"), (10, "missing: handle".into()));
        assert_eq!(mistake("0: linked 3 4"), (13, "'4' is one word too many".into()));
        assert_eq!(mistake("0: may"), (7, "missing: handle".into()));
        assert_eq!(mistake("0: may 3"), (9, "missing: a condition such as 'enabled tcb'".into()));
        assert_eq!(mistake("0: may 3 any(all()"), (19, "missing: ',' or ')'".into()));
        assert_eq!(mistake("0: may 3 group 20 30"), (19, "'30' is one word too many".into()));
        assert_eq!(mistake("0: restore x"), (12, "'x' is no handle: say a number".into()));
        assert_eq!(mistake("0: restore 1 2"), (14, "'2' is one word too many".into()));
        assert_eq!(mistake("0: close 4294967296"), (10, "4294967296 is over 4294967295".into()));
        assert_eq!(mistake("0: privileges 1 tcbb=enable").0, 17);
        assert_eq!(mistake("0: privileges 1 tcb=on").0, 21);
        assert_eq!(mistake("0: privileges 1").0, 16);
        assert_eq!(mistake("0: create user=1 user=2"), (18, "'user' is there twice".into()));
        assert_eq!(mistake("0: create session=1").1, "missing: user=..");
        assert_eq!(mistake("0: default 1 owner=70000").0, 20);
        assert_eq!(mistake("0: query 1 user capcity=1").0, 17);
        assert_eq!(mistake("0: bytes 0").0, 10);
        assert_eq!(mistake("0: bytes").0, 9);
        assert_eq!(mistake("state now").0, 7);
        assert_eq!(mistake("token"), (6, "missing: number".into()));
        assert_eq!(mistake("token x"), (7, "'x' is no token: say a number".into()));
        assert_eq!(mistake("token 1 2"), (9, "'2' is one word too many".into()));
        assert_eq!(mistake("expect"), (7, "missing: an answer such as 'refused 4'".into()));
        assert_eq!(mistake("save # x"), (5, "missing: a file's name".into()));
        assert_eq!(mistake("0: create user=bob").0, 16);
        assert_eq!(mistake("0: create user=S-1-5-x").0, 22);
        let unknown = "is not in the SID table: say the SID, such as S-1-5-21-1000";
        assert_eq!(mistake("0: create user=S-1-0 groups=18,32"), (32, format!("32 {unknown}")));
        assert_eq!(mistake("0: restrict 1 sids=8,S-1-0"), (20, format!("8 {unknown}")));
        let nobodys = "S-1-0 is not in the SID table: no group has it";
        assert_eq!(mistake("0: may 1 not group S-1-0"), (20, nobodys.into()));
    }

    #[test]
    fn a_copy_for_impersonation_says_its_level() {
        let levels = "anonymous, identification, impersonation, delegation";
        let expected = (47, format!("missing: level=.., one of {levels}"));
        assert_eq!(mistake("0: duplicate 1 type=impersonation rights=query"), expected);
        assert_eq!(mistake("0: duplicate 1 type=2").0, 22);
        assert_eq!(sent("0: duplicate 1 type=2 level=0 rights=8"), "05 09 01 02 00 08");
        assert_eq!(sent("0: duplicate 1 type=primary rights=query"), "05 09 01 01 00 08");
    }

    #[test]
    fn a_request_that_no_frame_holds_is_a_mistake() {
        let line = format!("0: restrict 1 sids={}", vec!["4294967295"; 500].join(","));
        assert_eq!(mistake(&line), (4, "the request is over 2048 bytes".into()));
    }
}
