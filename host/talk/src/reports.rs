//! The reports of request 5, and what puts back what they say.

use std::collections::BTreeMap;

use obriska::codec::Request;
use obriska::{Answer, Restore, RestoreError};

use crate::arguments::Arguments;
use crate::vocabulary;
use crate::words::{Mistake, Word};

/// The last report of each station that has one.
#[derive(Default)]
pub struct Reports(BTreeMap<u32, Report>);

/// The handle that a request 5 was on, and what puts back what it changed.
struct Report {
    handle: u32,
    restore: Result<Restore, RestoreError>,
}

impl Reports {
    /// Takes what a station sent and its answer: a report if it is one.
    pub fn take(&mut self, station: u32, frame: &[u8], answer: &Answer) {
        let Ok(Request::Privileges { handle, .. }) = Request::read(frame) else {
            return;
        };
        if answer.refusal().is_some() {
            return; // a refused request changed nothing, and the report before it still counts
        }
        let restore = Restore::new(frame, answer.bytes());
        self.0.insert(station, Report { handle, restore });
    }

    /// The request that puts back what the station's last report says, on its handle or on the one
    /// that is given.
    pub fn put_back(
        &self,
        station: u32,
        name: Word,
        mut arguments: Arguments,
    ) -> Result<Vec<u8>, Mistake> {
        let given = if arguments.is_empty() { None } else { Some(arguments.u32("handle")?) };
        arguments.finish()?;
        let Some(report) = self.0.get(&station) else {
            return Err(name.mistake(format_args!("station {station} has no report to restore")));
        };
        match &report.restore {
            Ok(restore) => Ok(restore.request(given.unwrap_or(report.handle))),
            Err(error) => Err(name.mistake(why(station, *error))),
        }
    }
}

/// Why a report puts nothing back.
fn why(station: u32, error: RestoreError) -> String {
    let error = match error {
        RestoreError::Removal(privilege) => {
            let name = vocabulary::privilege_text(privilege.into());
            format!("it was to remove {name}, and no request gives one back")
        }
        error => error.to_string(),
    };
    format!("station {station}'s last report restores nothing: {error}")
}

#[cfg(test)]
mod tests {
    use obriska::Broker;

    use super::*;

    /// The bytes that `restore` and these words would send after station 0's requests.
    fn after(requests: &[&[u8]], words: &str) -> Result<Vec<u8>, Mistake> {
        let mut broker = Broker::start();
        let mut reports = Reports::default();
        for request in requests {
            let answers = broker.feed(0, request).unwrap();
            reports.take(0, request, &answers[0]);
        }
        let line = Word::line(words);
        reports.put_back(0, line, Arguments::new(line, line.words()))
    }

    const OPEN: &[u8] = &[2, 1, 0x28];
    const DISABLE: &[u8] = &[7, 5, 1, 2, 19, 0, 7, 2];
    const REMOVE: &[u8] = &[7, 5, 1, 2, 19, 2, 7, 4];
    const RESET: &[u8] = &[9, 5, 1, 1, 0, 0x80, 0x80, 0x80, 0x80, 8];

    #[test]
    fn the_last_report_is_put_back_on_its_handle_or_on_another() {
        assert_eq!(after(&[OPEN, DISABLE], ""), Ok(vec![7, 5, 1, 2, 19, 2, 7, 2]));
        assert_eq!(after(&[OPEN, DISABLE], "300"), Ok(vec![8, 5, 0xAC, 2, 2, 19, 2, 7, 2]));
        assert_eq!(after(&[OPEN, RESET, DISABLE, DISABLE], ""), Ok(vec![7, 5, 1, 2, 19, 0, 7, 2]));
    }

    #[test]
    fn a_refused_request_leaves_the_report_before_it() {
        let bad: &[u8] = &[5, 5, 1, 1, 37, 0];
        let cut_short: &[u8] = &[4, 5, 1, 2, 19];
        let other: &[u8] = &[5, 4, 1, 3, 0x80, 8];
        let expected = after(&[OPEN, DISABLE], "");
        assert_eq!(after(&[OPEN, DISABLE, bad, cut_short, other], ""), expected);
    }

    #[test]
    fn without_a_report_to_put_back_it_says_why() {
        let message = |requests: &[&[u8]]| after(requests, "").unwrap_err().message;
        assert_eq!(message(&[OPEN]), "station 0 has no report to restore");
        assert_eq!(
            message(&[OPEN, DISABLE, RESET]),
            "station 0's last report restores nothing: it was a reset, which names no privilege"
        );
        assert_eq!(
            message(&[OPEN, DISABLE, REMOVE]),
            "station 0's last report restores nothing: it was to remove SeTcbPrivilege 7, and no request gives one back"
        );
    }
}
