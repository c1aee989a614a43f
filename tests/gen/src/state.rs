//! Random valid states, also such as no list of requests leads to; and starts to go on from.

use model::{
    framed, Client, Elevation, Group, Handle, Level, Mask, Model, Privileges, Request, SidTable,
    Station, Token, TokenType, ALL_PRIVILEGES, HANDLES, IMPERSONATE, INTEGRITY_LEVELS, MAX_BODY,
    MAX_DACL, MAX_GROUPS, MAX_RESTRICTING, MIN_BUFFER, NO_ROOT, STATIONS, TOKENS,
};

use crate::broker::status;
use crate::fields::{fields, flat};
use crate::pairs::place_pairs;
use crate::rng::Rng;
use crate::sids::{any_table, some_number, start_with_sids};
use crate::wishes::NEEDED;

/// All levels.
pub(crate) const LEVELS: [Level; 4] =
    [Level::Anonymous, Level::Identification, Level::Impersonation, Level::Delegation];

/// A random valid state.
pub fn state(rng: &mut Rng) -> Model {
    let mut model = Model::start();
    model.sids = any_table(rng);
    place_tokens(rng, &mut model);
    place_pairs(rng, &mut model);
    let primaries: Vec<u64> = live(&model)
        .filter(|token| token.kind == TokenType::Primary)
        .map(|token| token.number)
        .collect();
    let few = rng.some(&primaries, 3);
    let others: Vec<(u64, Level)> = live(&model)
        .filter(|token| token.kind == TokenType::Impersonation)
        .map(|token| (token.number, token.level))
        .collect();
    for station in &mut model.stations {
        let token = rng.pick_any(&few).unwrap_or_else(|| rng.pick(&primaries));
        let client = random_client(rng, &others);
        *station = Station { client, ..random_station(rng, token) };
    }
    place_handles(rng, &mut model);
    model
}

/// A start whose next numbers are near the last usable ones.
pub fn near_the_last_numbers(rng: &mut Rng) -> Model {
    Model {
        next_token: u64::MAX - rng.below(12) as u64,
        next_handle: u32::MAX - rng.below(20) as u32,
        ..Model::start()
    }
}

/// A start at which every other station has made a token with groups of all kinds, and a copy of it
/// with an ordinary and a mandatory one made deny-only.
pub fn with_groups() -> Model {
    let mut model = start_with_sids();
    let (user, session, integrity, present, default) = (50, 9, 0, 0, 0);
    let logon = Group::LOGON_ID | 2;
    let of_others = [0, 2, 3, 0x10, logon, logon | 3].map(|attributes| (60, attributes));
    let groups = [of_others.as_slice(), &[(user, 2), (user, 3)]].concat();
    for station in (0..STATIONS).step_by(2) {
        let groups = groups.clone();
        let made = Request::Create { user, session, integrity, present, default, groups };
        let handle = ask(&mut model, station, &made);
        let (write_restricted, remove, deny, sids) = (0, 0, vec![1, 2], vec![]);
        ask(
            &mut model,
            station,
            &Request::Restrict { handle, write_restricted, remove, deny, sids },
        );
    }
    model
}

/// A start at which every other station has made two copies of its token: restricted by a list with
/// repeats, with the mark and without it; by the longest, with the mark; and marked without SIDs.
pub fn with_restrictions() -> Model {
    let mut model = start_with_sids();
    let repeats = vec![50, 60, 50, 18];
    let most: Vec<u32> = (50..).take(MAX_RESTRICTING).collect();
    let lists = [(0, repeats.clone()), (1, vec![]), (1, repeats), (1, most)];
    let mut lists = lists.into_iter().cycle();
    for station in (0..STATIONS).step_by(2) {
        let handle = ask(&mut model, station, &Request::Open { mask: Mask::ALL.0 });
        for (write_restricted, sids) in lists.by_ref().take(2) {
            let (remove, deny) = (0, vec![]);
            ask(
                &mut model,
                station,
                &Request::Restrict { handle, write_restricted, remove, deny, sids },
            );
        }
    }
    model
}

/// A start at which every other station has made a token, a copy of it, an anonymous copy of that and
/// a primary copy of the anonymous one; the first of these is gone, or the third.
pub fn with_copies() -> Model {
    let mut model = start_with_sids();
    let (user, session, integrity) = (50, 9, 0);
    let (present, default) = (ALL_PRIVILEGES, ALL_PRIVILEGES);
    for station in (0..STATIONS).step_by(2) {
        let create = Request::Create { user, session, integrity, present, default, groups: vec![] };
        let made = ask(&mut model, station, &create);
        let copy = duplicate(&mut model, station, made, TokenType::Primary);
        let anonymous = duplicate(&mut model, station, copy, TokenType::Impersonation);
        duplicate(&mut model, station, anonymous, TokenType::Primary);
        let handle = if station % 4 == 0 { made } else { anonymous };
        ask(&mut model, station, &Request::Close { handle });
    }
    model
}

/// The tokens of [`with_clients`], and each station's handles: one on a server that is not its own, and
/// on clients.
const SERVERS: usize = 4;
const CLIENTS: usize = 8;
const HANDLES_EACH: usize = 3;
/// What these servers have, and their clients have or not.
const SERVER_USER: u32 = 50;
const SERVER_INTEGRITY: usize = 2;

/// A start for request 12. The stations' tokens are of one user and integrity, restricted or not, and
/// with Impersonate held or not; the clients that each station has handles on differ in whatever the
/// gates read, each as likely as its opposite.
pub fn with_clients(rng: &mut Rng) -> Model {
    let mut model = start_with_sids();
    for slot in 0..SERVERS {
        model.tokens[slot] = Some(server(number_in(slot), slot));
    }
    for slot in SERVERS..SERVERS + CLIENTS {
        model.tokens[slot] = Some(random_other(rng, number_in(slot)));
    }
    for station in 0..STATIONS {
        model.stations[station].token = number_in(station % SERVERS);
        for own in 0..HANDLES_EACH {
            let at = station * HANDLES_EACH + own;
            let slot = match own {
                0 => (station + 1) % SERVERS,
                _ => SERVERS + (at - station) % CLIENTS,
            };
            let (station, number, token) = (station as u32, at as u32 + 1, number_in(slot));
            model.handles[at] = Some(Handle { station, number, token, mask: Mask::ALL.0 });
        }
    }
    model.next_token = number_in(SERVERS + CLIENTS);
    model.next_handle = (STATIONS * HANDLES_EACH) as u32 + 1;
    model
}

/// The number of the token in a slot of [`with_clients`].
fn number_in(slot: usize) -> u64 {
    slot as u64 + 1
}

/// A primary token; the bits say whether it is restricted and whether it holds Impersonate.
fn server(number: u64, bits: usize) -> Token {
    let enabled = if bits & 1 == 1 { ALL_PRIVILEGES } else { ALL_PRIVILEGES & !(1 << IMPERSONATE) };
    Token {
        privileges: Privileges::new(ALL_PRIVILEGES, enabled),
        restricting: if bits & 2 == 2 { vec![70, 71] } else { vec![] },
        integrity: INTEGRITY_LEVELS[SERVER_INTEGRITY],
        ..Token::bare(number, SERVER_USER, 9)
    }
}

/// An impersonation token that may be like the servers or not.
fn random_other(rng: &mut Rng, number: u64) -> Token {
    let user = rng.pick(&[SERVER_USER, SERVER_USER + 1]);
    Token {
        kind: TokenType::Impersonation,
        level: rng.pick(&LEVELS),
        restricting: rng.pick(&[&[][..], &[70]]).to_vec(),
        write_restricted: rng.percent(30),
        integrity: INTEGRITY_LEVELS[SERVER_INTEGRITY - 1 + rng.below(3)],
        ..Token::bare(number, user, 9)
    }
}

/// A duplicate of this type, at level 0 and with all rights.
fn duplicate(model: &mut Model, station: usize, handle: u32, kind: TokenType) -> u32 {
    let (kind, level, mask) = (kind as u32, Level::Anonymous as u32, Mask::ALL.0);
    ask(model, station, &Request::Duplicate { handle, kind, level, mask })
}

/// Makes a request; gives the handle that it answers, if it answers one.
fn ask(model: &mut Model, station: usize, request: &Request) -> u32 {
    let fed = model.feed(station as u32, &framed(&flat(&fields(request))), MIN_BUFFER);
    assert_eq!(status(&fed.answer), Some(0), "{request:?}");
    model.next_handle - 1
}

fn live(model: &Model) -> impl Iterator<Item = &Token> {
    model.tokens.iter().flatten()
}

/// Numbers for the live ones of so many slots, three for each: low, from the middle, or a little
/// below the largest.
fn numbers(rng: &mut Rng, slots: usize, middle: u64, largest: u64) -> Vec<u64> {
    let count = 3 * slots as u64;
    let base = rng.pick(&[0, 0, middle, largest - 2 * count]);
    (1..=count).map(|number| base + number).collect()
}

/// Tokens in random slots with random numbers, one of them primary at least.
fn place_tokens(rng: &mut Rng, model: &mut Model) {
    let slots: Vec<usize> = (0..TOKENS).collect();
    let most = rng.pick(&[3, TOKENS / 2, TOKENS]);
    let mut chosen = rng.some(&slots, most);
    if chosen.is_empty() {
        chosen.push(rng.below(TOKENS));
    }
    let numbers = numbers(rng, TOKENS, 1 << 32, u64::MAX);
    model.tokens = [const { None }; TOKENS];
    let mut highest = 0;
    let given = distinct(rng, &numbers, chosen.len());
    for (&slot, &number) in chosen.iter().zip(&given) {
        let root = random_root(rng, number, &given);
        let mut token = Token { root, ..random_token(rng, number, &model.sids) };
        if slot == chosen[0] {
            token.kind = TokenType::Primary;
            token.level = Level::Anonymous;
        }
        highest = highest.max(number);
        model.tokens[slot] = Some(token);
    }
    model.next_token = rng.pick(&[highest + 1, highest + 1, highest + 9, u64::MAX]);
}

/// A token's own number, no root, that of a live token below it, or any number below it.
fn random_root(rng: &mut Rng, number: u64, live: &[u64]) -> u64 {
    let lower: Vec<u64> = live.iter().copied().filter(|&other| other < number).collect();
    let below = rng.word() % number;
    let other = rng.pick_any(&lower).unwrap_or(below);
    rng.pick(&[number, number, NO_ROOT, NO_ROOT, number - 1, below, other, other])
}

/// So many distinct items.
fn distinct<T: Copy>(rng: &mut Rng, items: &[T], count: usize) -> Vec<T> {
    let mut rest = items.to_vec();
    (0..count).map(|_| rest.swap_remove(rng.below(rest.len()))).collect()
}

/// A handle on each token that no station and no pair refers to, and some more.
fn place_handles(rng: &mut Rng, model: &mut Model) {
    let numbers: Vec<u32> = numbers(rng, HANDLES, 1 << 20, u32::MAX.into())
        .into_iter()
        .map(|number| number as u32)
        .collect();
    let mut unreferred: Vec<u64> = live(model)
        .map(|token| token.number)
        .filter(|&number| !model.is_referred_to(number))
        .collect();
    let all: Vec<u64> = live(model).map(|token| token.number).collect();
    let more = if rng.percent(15) { HANDLES } else { rng.below(HANDLES - unreferred.len() + 1) };
    let more = if rng.percent(15) { 0 } else { more.min(HANDLES - unreferred.len()) };
    unreferred.extend((0..more).map(|_| rng.pick(&all)));
    let slots: Vec<usize> = (0..HANDLES).collect();
    let places = distinct(rng, &slots, unreferred.len());
    let given = distinct(rng, &numbers, unreferred.len());
    let highest = given.iter().copied().max().unwrap_or(numbers[0] - 1);
    for ((slot, number), token) in places.into_iter().zip(given).zip(unreferred) {
        model.handles[slot] = Some(random_handle(rng, number, token));
    }
    model.next_handle = rng.pick(&[highest + 1, highest + 1, highest + 9, u32::MAX]);
}

fn random_handle(rng: &mut Rng, number: u32, token: u64) -> Handle {
    let mask = rng.pick(&[Mask::ALL.0, Mask::ALL.0, rng.clone().word() as u32 & Mask::ALL.0]);
    Handle { station: rng.below(STATIONS) as u32, number, token, mask: mask.max(1) }
}

fn random_token(rng: &mut Rng, number: u64, table: &SidTable) -> Token {
    let kind = rng.pick(&[TokenType::Primary, TokenType::Primary, TokenType::Impersonation]);
    let level = match kind {
        TokenType::Primary => Level::Anonymous,
        TokenType::Impersonation => rng.pick(&LEVELS),
    };
    let present = (rng.bits() | rng.pick(&[0, NEEDED])) & ALL_PRIVILEGES;
    let mut token = Token {
        modified: rng.pick(&[number, 0, u64::MAX]),
        kind,
        level,
        elevation: rng.pick(&[Elevation::Default, Elevation::Full, Elevation::Limited]),
        privileges: Privileges {
            present,
            enabled: (rng.bits() | NEEDED) & present,
            default: rng.bits() & present,
            used: rng.bits() & ALL_PRIVILEGES,
        },
        restricting: small_list(rng, MAX_RESTRICTING)
            .iter()
            .map(|_| some_number(rng, table))
            .collect(),
        write_restricted: rng.percent(30),
        user_deny_only: rng.percent(30),
        dacl: small_list(rng, MAX_DACL).iter().map(|_| rng.word() as u8).collect(),
        scope: rng.pick(&[0, 1, u32::MAX]),
        integrity: rng.pick(&INTEGRITY_LEVELS),
        ..Token::bare(number, some_number(rng, table), rng.pick(&[999, 9, u64::MAX]))
    };
    token.groups = small_list(rng, MAX_GROUPS).iter().map(|_| random_group(rng, table)).collect();
    place_indexes(rng, &mut token);
    token
}

/// A list of mostly few items, sometimes none or as many as there may be.
fn small_list(rng: &mut Rng, most: usize) -> Vec<()> {
    let count = match rng.below(8) {
        0 => most,
        1 => rng.below(most + 1),
        2 => 0,
        _ => rng.below(6),
    };
    vec![(); count]
}

fn random_group(rng: &mut Rng, table: &SidTable) -> Group {
    let logon = if rng.percent(15) { Group::LOGON_ID } else { 0 };
    let mut attributes = rng.word() as u32 & Group::ALL & !Group::LOGON_ID | logon;
    if attributes & Group::DENY_ONLY != 0 {
        attributes &= !Group::ENABLED;
    }
    Group { sid: some_number(rng, table), attributes }
}

fn place_indexes(rng: &mut Rng, token: &mut Token) {
    let indexes: Vec<u16> = (0..=token.groups.len() as u16).collect();
    let owners: Vec<u16> = indexes.iter().copied().filter(|&index| token.may_own(index)).collect();
    token.owner = rng.pick(&owners);
    token.primary_group = rng.pick(&indexes);
}

/// None, or one of the tokens at a level up to its own.
fn random_client(rng: &mut Rng, tokens: &[(u64, Level)]) -> Option<Client> {
    let (token, own) = rng.pick_any(tokens).filter(|_| rng.percent(60))?;
    let below: Vec<Level> = LEVELS.into_iter().filter(|&level| level <= own).collect();
    let level = if rng.percent(40) { own } else { rng.pick(&below) };
    Some(Client { token, level })
}

fn random_station(rng: &mut Rng, token: u64) -> Station {
    let broken = rng.percent(15);
    let mut pending = Vec::new();
    if !broken && rng.percent(40) {
        let length = rng.pick(&[1, 5, 127, 128, 300, MAX_BODY]);
        let frame = framed(&(0..length).map(|_| rng.word() as u8).collect::<Vec<_>>());
        let cut = rng.pick(&[1, 2, frame.len() / 2, frame.len() - 1]).min(frame.len() - 1);
        pending = frame[..cut].to_vec();
    }
    Station { token, client: None, pending, broken }
}
