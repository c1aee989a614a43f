//! The words that a prompt may complete.

use crate::vocabulary;

/// What lines without a station begin with.
const COMMANDS: &str = "state token expect save load help quit exit";
/// What is asked for at a station.
const REQUESTS: &str =
    "open close create query privileges groups scope default duplicate restrict \
     install impersonate revert link linked may restore reconnect bytes";
/// Keys and other words of requests.
const OTHERS: &str =
    "user session integrity present default groups owner group dacl type level rights \
     remove deny sids capacity write-restricted none reset all any not enabled S-1-5-";

/// All of them; some may come twice.
pub fn words() -> impl Iterator<Item = &'static str> {
    let names = [COMMANDS, REQUESTS, OTHERS].into_iter().flat_map(str::split_whitespace);
    names.chain(vocabulary::all())
}

#[cfg(test)]
mod tests {
    use obriska::Broker;

    use super::*;
    use crate::line;
    use crate::reports::Reports;
    use crate::sids::Table;

    /// What is wrong with a line, or nothing.
    fn mistake(line: &str) -> String {
        let parsed = line::parse(line, &Reports::default(), &Table::of(&Broker::start()));
        parsed.err().map_or(String::new(), |mistake| mistake.message)
    }

    #[test]
    fn every_request_and_command_is_known() {
        for name in REQUESTS.split_whitespace() {
            assert!(!mistake(&format!("0: {name}")).contains("is no request"), "{name}");
        }
        for name in COMMANDS.split_whitespace() {
            assert!(!mistake(name).contains("no station"), "{name}");
        }
        assert!(mistake("0: opne").contains("is no request"));
        assert!(mistake("stat").contains("no station"));
    }

    #[test]
    fn what_help_shows_is_completed() {
        let help = include_str!("help.txt").lines();
        let examples = help.filter_map(|line| line.strip_prefix("  0: "));
        for example in examples {
            let name = example.split_whitespace().next().expect("a request");
            assert!(words().any(|word| word == name), "{name}");
        }
        for word in ["query", "SeTcbPrivilege", "medium", "mandatory", "write-restricted"] {
            assert!(words().any(|other| other == word), "{word}");
        }
    }
}
