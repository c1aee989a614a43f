//! Answers in words.

use obriska::codec::{first_frame, List, PrivilegeEntry, Reply, Report, Request, Statistics};
use obriska::{
    names, Answer, Client, Group, Level, PreviousGroups, PreviousPrivileges, Privileges, Refusal,
};

use crate::hex;
use crate::sids::Table;
use crate::vocabulary::{self, ELEVATIONS, LEVELS, TYPES};

/// The whole requests that a stream begins with.
pub fn frames(mut stream: &[u8]) -> Vec<&[u8]> {
    let mut frames = Vec::new();
    while let Ok(Some((frame, rest))) = first_frame(stream) {
        frames.push(frame);
        stream = rest;
    }
    frames
}

/// An answer in words, given its request (a break has none) and the SIDs that there are.
pub fn words(request: &[u8], answer: &Answer, table: &Table) -> Vec<String> {
    read(request, answer.bytes(), table).unwrap_or_else(|| {
        // What is no request is refused, and a refusal has no fields.
        vec![answer.refusal().map_or("done".to_string(), |refusal| refusal.to_string())]
    })
}

/// The words of an answer, both as whole frames.
fn read(request: &[u8], answer: &[u8], table: &Table) -> Option<Vec<String>> {
    let request = Request::read(request).ok()?;
    let reply = Reply::read(&request, answer).ok()?;
    Some(match (request, reply) {
        (_, Reply::Report(report)) => report_lines(report, table),
        (_, Reply::Refused(Refusal::Field)) => {
            [Some(line(reply)), unknown_sid(request, table)].into_iter().flatten().collect()
        }
        (Request::Privileges { entries, .. }, Reply::Privileges(previous)) => {
            previous_lines(entries, previous)
        }
        _ => vec![line(reply)],
    })
}

/// What is to be said of the first SID of request 3 or 10 that is not in the table, if there is one.
fn unknown_sid(request: Request, table: &Table) -> Option<String> {
    let (number, entering) = match request {
        Request::Create { user, groups, .. } => {
            let mut sids = std::iter::once(user).chain(groups.iter().map(|group| group.sid));
            (sids.find(|&sid| !table.has(sid))?, 14)
        }
        Request::Restrict { sids, .. } => (sids.iter().find(|&sid| !table.has(sid))?, 15),
        _ => return None,
    };
    Some(format!(
        "a SID's number must be in the table, and {number} is not; request {entering} enters SIDs"
    ))
}

/// A reply that is one line.
fn line(reply: Reply) -> String {
    match reply {
        Reply::TooLarge { size } => {
            format!("refused 9: the report's size is {size}, above the capacity")
        }
        Reply::Refused(refusal) => refusal.to_string(),
        Reply::Handle(handle) => format!("handle {handle}"),
        Reply::Groups(previous) => format!("enabled before: {}", groups_text(previous)),
        Reply::Level(level) => format!("acts at level {}", level_text(level)),
        Reply::Reverted(None) => "acted for none".to_string(),
        Reply::Reverted(Some(Client { token, level, .. })) => {
            format!("acted for token {token} at level {}", level_text(level))
        }
        Reply::Holds(holds) => if holds { "yes" } else { "no" }.to_string(),
        _ => "done".to_string(),
    }
}

/// How each privilege that request 5 named was before it; after a reset, how those present were.
fn previous_lines(entries: List<PrivilegeEntry>, previous: PreviousPrivileges) -> Vec<String> {
    if entries == (&[PrivilegeEntry::RESET]).into() {
        let PreviousPrivileges { present, enabled, .. } = previous;
        let line = |name, word| format!("was {name}: {}", vocabulary::privileges_text(word));
        return vec![line("enabled", enabled), line("disabled", present & !enabled)];
    }
    let line = |entry: PrivilegeEntry| {
        let state = previous.state(entry.privilege);
        format!("{} was {state}", vocabulary::privilege_text(entry.privilege.into()))
    };
    entries.iter().map(line).collect()
}

fn level_text(level: Level) -> String {
    vocabulary::text(&LEVELS, level as u64)
}

/// The groups that were enabled.
fn groups_text(previous: PreviousGroups) -> String {
    let groups: Vec<_> = previous.indexes().map(|index| index.to_string()).collect();
    match groups.len() {
        0 => "none".to_string(),
        1 => format!("group {}", groups[0]),
        _ => format!("groups {}", groups.join(", ")),
    }
}

/// A query's report.
pub fn report_lines(report: Report, table: &Table) -> Vec<String> {
    vec![match report {
        Report::User(sid) => format!("user {}", table.text(sid)),
        Report::Groups(groups) => return group_lines(groups, table),
        Report::Privileges(privileges) => return privilege_lines(privileges),
        Report::Owner(sid) => format!("owner {}", table.text(sid)),
        Report::PrimaryGroup(sid) => format!("primary group {}", table.text(sid)),
        Report::Dacl(dacl) => dacl_text(dacl),
        Report::Type(token_type) => format!("type {}", vocabulary::text(&TYPES, token_type as u64)),
        Report::Level(level) => format!("level {}", level_text(level)),
        Report::Statistics(statistics) => statistics_text(statistics),
        Report::Restricting(sids) => restricting_text(sids, table),
        Report::Scope(scope) => format!("scope {scope}"),
        Report::Elevation(elevation) => {
            format!("elevation {}", vocabulary::text(&ELEVATIONS, elevation as u64))
        }
        Report::Integrity(integrity) => {
            format!("integrity {}", vocabulary::integrity_text(integrity.into()))
        }
        _ => "done".to_string(),
    }]
}

fn dacl_text(dacl: &[u8]) -> String {
    if dacl.is_empty() {
        "no default DACL".to_string()
    } else {
        format!("default DACL of {} bytes: {}", dacl.len(), hex::text(dacl))
    }
}

/// A line for each group.
fn group_lines(groups: List<Group>, table: &Table) -> Vec<String> {
    let line = |(index, group): (usize, Group)| {
        let attributes = vocabulary::bits_text(&names::GROUP_ATTRIBUTES, group.attributes);
        let sid = table.text(group.sid);
        format!("group {index}: {sid}, attributes {attributes}")
    };
    if groups.is_empty() {
        return vec!["no groups".to_string()];
    }
    groups.iter().enumerate().map(line).collect()
}

fn privilege_lines(privileges: Privileges) -> Vec<String> {
    let line = |name, word| format!("{name}: {}", vocabulary::privileges_text(word));
    vec![
        line("present", privileges.present),
        line("enabled", privileges.enabled),
        line("default", privileges.default),
        line("used", privileges.used),
    ]
}

fn statistics_text(statistics: Statistics) -> String {
    let Statistics { number, session, modified, token_type, root, .. } = statistics;
    let token_type = vocabulary::text(&TYPES, token_type as u64);
    let root = vocabulary::root_text(root);
    format!(
        "token {number}, session {session}, modified {modified}, type {token_type}, root {root}"
    )
}

fn restricting_text(sids: List<u32>, table: &Table) -> String {
    if sids.is_empty() {
        return "no restricting SIDs".to_string();
    }
    let sids: Vec<_> = sids.iter().map(|sid| table.text(sid)).collect();
    format!("restricting SIDs {}", sids.join(", "))
}

#[cfg(test)]
mod tests {
    use obriska::Broker;

    use super::*;

    /// What is said of a success with these fields, given the request's body.
    fn success(request: &[u8], fields: &[u8]) -> Option<Vec<String>> {
        let request = [&[request.len() as u8], request].concat();
        let answer = [&[1 + fields.len() as u8, 0], fields].concat();
        read(&request, &answer, &Table::of(&Broker::start()))
    }

    fn report(class: u8, fields: &[u8]) -> Option<Vec<String>> {
        success(&[4, 1, class, 64], fields)
    }

    #[test]
    fn requests_are_cut_at_their_lengths() {
        let stream = [2, 1, 8, 1, 9, 3, 1];
        assert_eq!(frames(&stream), [&[2, 1, 8][..], &[1, 9]]);
        assert!(frames(&[0]).is_empty());
        assert!(frames(&[0x81, 0x10, 1]).is_empty());
        assert!(frames(&[0x80]).is_empty());
    }

    #[test]
    fn successes_say_what_they_answer() {
        let said = |request: &[u8], fields: &[u8]| success(request, fields).unwrap();
        assert_eq!(said(&[1, 8], &[5]), ["handle 5"]);
        let words = [[9].as_slice(), &[0; 15]].concat();
        assert_eq!(said(&[6, 1, 1, 0, 0], &words), ["enabled before: groups 0, 3"]);
        assert_eq!(said(&[12, 3], &[2]), ["acts at level impersonation"]);
        assert_eq!(said(&[13], &[0x80, 1, 1]), ["acted for token 128 at level identification"]);
        assert_eq!(said(&[13], &[3, 0]), ["acted for token 3 at level anonymous"]);
        assert_eq!(said(&[13], &[0, 0]), ["acted for none"]);
        assert_eq!(said(&[17, 3], &[0xAC, 2]), ["handle 300"]);
        assert_eq!(said(&[18, 3, 1, 0], &[1]), ["yes"]);
        assert_eq!(said(&[18, 3, 2, 0], &[0]), ["no"]);
        assert_eq!(said(&[2, 1], &[]), ["done"]);
        assert_eq!(said(&[16, 1, 2, 5], &[]), ["done"]);
    }

    #[test]
    fn a_number_that_is_not_in_the_table_is_named_at_refusal_5() {
        let refused = |request: &[u8]| {
            let request = [&[request.len() as u8], request].concat();
            read(&request, &[1, 5], &Table::of(&Broker::start())).unwrap()[1..].join(" | ")
        };
        let said = |number, request| {
            let rest = format!("and {number} is not; request {request} enters SIDs");
            format!("a SID's number must be in the table, {rest}")
        };
        assert_eq!(refused(&[3, 19, 0, 0, 0, 0, 0]), said(19, 14));
        assert_eq!(refused(&[3, 18, 0, 0, 0, 0, 2, 7, 0, 8, 0]), said(8, 14));
        assert_eq!(refused(&[10, 1, 0, 0, 0, 2, 18, 32]), said(32, 15));
        assert_eq!(refused(&[3, 18, 0, 1, 0, 0, 0]), ""); // it was something else
        assert_eq!(refused(&[1, 0x10]), "");
    }

    #[test]
    fn request_5_says_how_each_named_privilege_was() {
        let said = |request: &[u8], fields: &[u8]| success(request, fields).unwrap();
        assert_eq!(said(&[5, 1, 1, 7, 0], &[0x80, 1, 0x80, 1]), ["SeTcbPrivilege 7 was enabled"]);
        assert_eq!(
            said(&[5, 1, 3, 20, 4, 7, 2, 2, 0], &[0x84, 1, 4]),
            [
                "SeDebugPrivilege 20 was absent",
                "SeTcbPrivilege 7 was disabled",
                "SeCreateTokenPrivilege 2 was enabled",
            ]
        );
        let reset = [5, 1, 1, 0, 0x80, 0x80, 0x80, 0x80, 8];
        assert_eq!(
            said(&reset, &[0x84, 1, 4]),
            ["was enabled: SeCreateTokenPrivilege 2", "was disabled: SeTcbPrivilege 7"]
        );
        assert_eq!(said(&reset, &[0, 0]), ["was enabled: none", "was disabled: none"]);
        assert_eq!(success(&[5, 1, 1, 7, 0], &[0x80, 1]), None);
    }

    #[test]
    fn every_report_has_its_words() {
        let said = |class, fields: &[u8]| report(class, fields).unwrap().join(" | ");
        assert_eq!(said(1, &[18]), "user 18 (S-1-5-18)");
        assert_eq!(said(2, &[0]), "no groups");
        assert_eq!(
            said(2, &[2, 5, 7, 6, 0]),
            "group 0: 5, attributes mandatory, enabled-by-default, enabled | group 1: 6, attributes none"
        );
        assert_eq!(
            said(3, &[0x84, 1, 4, 4, 0]),
            "present: SeCreateTokenPrivilege 2, SeTcbPrivilege 7 | enabled: SeCreateTokenPrivilege 2 | default: SeCreateTokenPrivilege 2 | used: none"
        );
        assert_eq!(said(4, &[7]), "owner 7 (S-1-5-7)");
        assert_eq!(said(5, &[99]), "primary group 99");
        assert_eq!(said(6, &[0]), "no default DACL");
        assert_eq!(said(6, &[2, 0xFF, 1]), "default DACL of 2 bytes: FF 01");
        assert_eq!(said(7, &[2]), "type impersonation");
        assert_eq!(said(8, &[3]), "level delegation");
        assert_eq!(
            said(9, &[2, 0xE7, 7, 3, 1, 1]),
            "token 2, session 999, modified 3, type primary, root 1"
        );
        assert_eq!(
            said(9, &[4, 0, 4, 2, 0]),
            "token 4, session 0, modified 4, type impersonation, root none"
        );
        assert_eq!(report(9, &[1, 0xE7, 7, 2, 1]), None);
        assert_eq!(said(10, &[0]), "no restricting SIDs");
        assert_eq!(said(10, &[2, 77, 18]), "restricting SIDs 77, 18 (S-1-5-18)");
        assert_eq!(said(11, &[4]), "scope 4");
        assert_eq!(said(12, &[1]), "elevation default");
        assert_eq!(said(13, &[0x80, 0x40]), "integrity 8192 (medium)");
    }
}
