//! All of a token, in the words of its queries.

use obriska::codec::Report;
use obriska::{Token, TokenType};

use crate::answer;
use crate::sids::Table;

/// What there is to say of a token: what queries report of it, and its marks.
pub fn lines(token: &Token, table: &Table) -> Vec<String> {
    let marks =
        [(token.write_restricted, "write-restricted"), (token.user_deny_only, "user deny-only")];
    let marks = marks.into_iter().filter(|mark| mark.0).map(|mark| mark.1.to_string());
    let reports = reports(token).into_iter();
    reports.flat_map(|report| answer::report_lines(report, table)).chain(marks).collect()
}

/// The reports of a token; of its level, if it is for impersonation.
fn reports(token: &Token) -> Vec<Report<'_>> {
    let level = match token.token_type {
        TokenType::Primary => None,
        TokenType::Impersonation => Some(Report::Level(token.level)),
    };
    let before = [Report::Statistics(token.into()), Report::User(token.user)];
    let after = [
        Report::Elevation(token.elevation),
        Report::Integrity(token.integrity),
        Report::Scope(token.scope),
        Report::Owner(sid(token, token.owner)),
        Report::PrimaryGroup(sid(token, token.primary_group)),
        Report::Dacl(&token.dacl),
        Report::Groups(token.groups[..].into()),
        Report::Privileges(token.privileges),
        Report::Restricting(token.restricting[..].into()),
    ];
    before.into_iter().chain(level).chain(after).collect()
}

/// The SID at an index: 0 is the user, k is group k - 1.
fn sid(token: &Token, index: u16) -> u32 {
    match index {
        0 => token.user,
        _ => token.groups[usize::from(index) - 1].sid,
    }
}
