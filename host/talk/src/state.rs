//! What the broker keeps, as tables.

use obriska::{Broker, Client, Handle, Pair, Station, Token};

use crate::sids::Table;
use crate::vocabulary::{self, ELEVATIONS, LEVELS, TYPES};

/// Tokens (three tables), handles, stations, linked pairs and SIDs: in 80 columns unless numbers are
/// large, a handle's rights are many or a SID is long. All but the last table have SIDs by number.
pub fn lines(broker: &Broker) -> Vec<String> {
    let tokens: Vec<_> = broker.tokens().collect();
    let handles = broker.handles().map(handle_row).collect();
    let stations = broker.stations();
    let stations = stations.iter().enumerate().map(station_row).collect();
    let pairs = broker.pairs().map(pair_row).collect();
    let sids = Table::of(broker);
    let next = format!("next token {}, next handle {}", broker.next_token(), broker.next_handle());
    let [identities, standings, powers] = token_tables(&tokens);
    let tables = [
        identities,
        standings,
        powers,
        table(&["handle", "station", "token", "rights"], handles),
        table(&["station", "token", "acts for", "stream"], stations),
        table(&["pair of session", "elevated token", "filtered token"], pairs),
        table(&["number", "SID"], sids.rows()),
        vec![format!("{next}, {}", sids.size_text())],
    ];
    tables.join(&String::new())
}

/// Who the tokens are; their standing and what they give to new objects; what they may.
fn token_tables(tokens: &[Token]) -> [Vec<String>; 3] {
    let rows = |row: fn(&Token) -> Vec<String>| tokens.iter().map(row).collect();
    let standing = ["token", "elevation", "integrity", "scope", "owner / group", "DACL"];
    [
        table(&["token", "root", "modified", "session", "user", "type"], rows(identity_row)),
        table(&standing, rows(standing_row)),
        table(&["token", "privileges", "groups", "restricting"], rows(power_row)),
    ]
}

fn identity_row(token: &Token) -> Vec<String> {
    let token_type = vocabulary::text(&TYPES, token.token_type as u64);
    let level = vocabulary::text(&LEVELS, token.level as u64);
    let is_primary = token.token_type == obriska::TokenType::Primary;
    vec![
        token.number.to_string(),
        vocabulary::root_text(token.root),
        token.modified.to_string(),
        token.session.to_string(),
        token.user.to_string(),
        if is_primary { token_type } else { format!("{token_type}, {level}") },
    ]
}

fn standing_row(token: &Token) -> Vec<String> {
    vec![
        token.number.to_string(),
        vocabulary::text(&ELEVATIONS, token.elevation as u64),
        vocabulary::integrity_text(token.integrity.into()),
        token.scope.to_string(),
        owner(token),
        token.dacl.len().to_string(),
    ]
}

fn power_row(token: &Token) -> Vec<String> {
    vec![
        token.number.to_string(),
        privileges(token),
        token.groups.len().to_string(),
        restricting(token),
    ]
}

fn privileges(token: &Token) -> String {
    let words = token.privileges;
    let [present, enabled, used] = [words.present, words.enabled, words.used].map(u64::count_ones);
    format!("{enabled} of {present} enabled, {used} used")
}

/// The number of restricting SIDs, and the marks.
fn restricting(token: &Token) -> String {
    let mut text = token.restricting.len().to_string();
    if token.write_restricted {
        text.push_str(", write-restricted");
    }
    if token.user_deny_only {
        text.push_str(", user deny-only");
    }
    text
}

/// The indexes of owner and primary group: 0 is the user.
fn owner(token: &Token) -> String {
    let name = |index| match index {
        0 => "user".to_string(),
        _ => format!("group {}", index - 1),
    };
    format!("{} / {}", name(token.owner), name(token.primary_group))
}

fn handle_row(handle: Handle) -> Vec<String> {
    let numbers = [handle.number.into(), handle.station.into(), handle.token];
    let mut row = numbers.map(|number: u64| number.to_string()).to_vec();
    row.push(vocabulary::rights_text(handle.mask));
    row
}

fn station_row((index, station): (usize, &Station)) -> Vec<String> {
    vec![index.to_string(), station.token.to_string(), client(station), stream(station)]
}

fn pair_row(pair: Pair) -> Vec<String> {
    [pair.session, pair.elevated, pair.filtered].map(|number| number.to_string()).to_vec()
}

/// The token that a station acts for, and the level in force.
fn client(station: &Station) -> String {
    match station.client {
        None => "none".to_string(),
        Some(Client { token, level, .. }) => {
            format!("{token}, {}", vocabulary::text(&LEVELS, level as u64))
        }
    }
}

/// How a station's stream stands.
pub fn stream(station: &Station) -> String {
    match (station.broken, station.pending.len()) {
        (true, _) => "broken".to_string(),
        (false, 0) => "between requests".to_string(),
        (false, 1) => "1 byte of a request pending".to_string(),
        (false, count) => format!("{count} bytes of a request pending"),
    }
}

/// Rows under their headings, each column as wide as its widest entry.
fn table(headings: &[&str], rows: Vec<Vec<String>>) -> Vec<String> {
    let headings = headings.iter().map(|heading| heading.to_string()).collect();
    let rows: Vec<Vec<String>> = [vec![headings], rows].concat();
    let width = |column: usize| rows.iter().map(|row| row[column].len()).max().unwrap_or(0);
    let widths: Vec<_> = (0..rows[0].len()).map(width).collect();
    rows.iter().map(|row| padded(row, &widths)).collect()
}

fn padded(row: &[String], widths: &[usize]) -> String {
    let cells = row.iter().zip(widths).map(|(cell, &width)| format!("{cell:width$}"));
    cells.collect::<Vec<_>>().join("  ").trim_end().to_string()
}

#[cfg(test)]
mod tests {
    use super::*;

    #[test]
    fn columns_are_as_wide_as_their_widest_entry() {
        let rows = vec![vec!["1".to_string(), "longer".to_string()]];
        assert_eq!(table(&["token", "a"], rows), ["token  a", "1      longer"]);
    }

    #[test]
    fn a_station_shows_what_it_acts_for() {
        let mut broker = Broker::start();
        for frame in [&[2, 1, 6][..], &[5, 9, 1, 2, 1, 4], &[2, 12, 2]] {
            assert_eq!(broker.feed(3, frame).unwrap()[0].refusal(), None);
        }
        let lines = lines(&broker);
        assert!(lines.contains(&"station  token  acts for           stream".to_string()));
        assert!(lines.contains(&"2        1      none               between requests".to_string()));
        assert!(lines.contains(&"3        1      2, identification  between requests".to_string()));
    }

    #[test]
    fn a_pair_shows_its_session_and_its_tokens() {
        let mut broker = Broker::start();
        let create = [7, 3, 18, 5, 0, 0, 0, 0];
        for frame in [&create[..], &create, &[4, 16, 2, 1, 5]] {
            assert_eq!(broker.feed(3, frame).unwrap()[0].refusal(), None);
        }
        let lines = lines(&broker);
        let pairs = lines.iter().skip_while(|line| !line.starts_with("pair"));
        let expected = [
            "pair of session  elevated token  filtered token",
            "5                3               2",
            "",
            "number  SID",
            "7       S-1-5-7",
            "18      S-1-5-18",
            "",
            "next token 4, next handle 3, SIDs 2 of 256",
        ];
        assert!(pairs.eq(expected));
        let standings: Vec<_> = lines.iter().skip_while(|line| !line.contains("elev")).collect();
        assert!(standings[2].starts_with("2      limited"));
        assert!(standings[3].starts_with("3      full"));
    }

    #[test]
    fn the_start_has_one_token_and_eight_stations() {
        let lines = lines(&Broker::start());
        let expected = [
            "token  root  modified  session  user  type",
            "1      1     1         999      18    primary",
            "",
            "token  elevation  integrity       scope  owner / group  DACL",
            "1      default    16384 (system)  0      user / user    0",
            "",
            "token  privileges                groups  restricting",
            "1      35 of 35 enabled, 0 used  0       0",
            "",
        ];
        assert_eq!(lines[..expected.len()], expected);
        assert_eq!(lines.iter().filter(|line| line.ends_with("between requests")).count(), 8);
        assert_eq!(lines.last().unwrap(), "next token 2, next handle 1, SIDs 2 of 256");
    }
}
