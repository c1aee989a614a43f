//! Demand 3 on the model itself: what never grows, what stays, and that cuts change nothing. That a
//! second restriction never widens. That a root never changes, and is the oldest source. That a station
//! acts for another by its own requests only, never above the token's level. And that request 5
//! reports what was before.

use std::cell::RefCell;
use std::collections::{BTreeMap, BTreeSet};
use std::fmt::Debug;

use gen::{
    each_seed, one_seed, run, state, with_clients, with_copies, with_pairs, with_restrictions,
    Call, Step,
};
use model::{
    write_number, Client, Group, Level, Model, Reader, Request, Token, TokenType, DISABLE, ENABLE,
    IMPERSONATE, NO_ROOT, REMOVE, RESET_PRIVILEGES, STATIONS,
};

/// Many scripts, from the start and from random states.
fn run_all(check: impl Fn(&Step) + Copy) {
    each_seed(0..20, |seed, _| run(seed, Model::start(), 500, check));
    each_seed(100..200, |seed, rng| run(seed, state(rng), 100, check));
    each_seed(200..240, |seed, _| run(seed, with_restrictions(), 200, check));
    each_seed(240..280, |seed, _| run(seed, with_copies(), 200, check));
    each_seed(280..320, |seed, rng| run(seed, with_clients(rng), 200, check));
    each_seed(320..440, |seed, rng| run(seed, with_pairs(rng), 200, check));
}

fn tokens(model: &Model) -> impl Iterator<Item = &Token> {
    model.tokens.iter().flatten()
}

/// Each token that lives before and after, in both states.
fn pairs<'a>(before: &'a Model, after: &'a Model) -> Vec<(&'a Token, &'a Token)> {
    tokens(before).filter_map(|old| Some((old, after.token(old.number)?))).collect()
}

/// The state without the streams' places.
fn without_streams(model: &Model) -> Model {
    let mut model = model.clone();
    for station in 0..STATIONS {
        model.reconnect(station as u32);
    }
    model
}

#[test]
fn the_memory_always_holds_the_state() {
    run_all(|Step { call, after, .. }| {
        assert_eq!(after.memory().model().as_ref(), Some(*after), "{call:?}");
    });
}

#[test]
fn present_privileges_never_grow_and_enabled_ones_are_among_them() {
    run_all(|Step { call, before, after, .. }| {
        for (old, new) in pairs(before, after) {
            assert_eq!(new.privileges.present & !old.privileges.present, 0, "{call:?}");
        }
        for token in tokens(after) {
            let words = token.privileges;
            assert_eq!((words.enabled | words.default) & !words.present, 0, "{call:?}");
        }
    });
}

#[test]
fn used_and_deny_only_marks_stay() {
    run_all(|Step { call, before, after, .. }| {
        for (old, new) in pairs(before, after) {
            assert_eq!(old.privileges.used & !new.privileges.used, 0, "{call:?}");
            assert!(!old.user_deny_only || new.user_deny_only, "{call:?}");
            assert_eq!(old.groups.len(), new.groups.len(), "{call:?}");
            for (old, new) in old.groups.iter().zip(&new.groups) {
                assert!(!old.has(Group::DENY_ONLY) || new.has(Group::DENY_ONLY), "{call:?}");
            }
        }
    });
}

#[test]
fn identity_never_changes() {
    run_all(|Step { call, before, after, .. }| {
        let identity = |token: &Token| {
            let limits = (token.restricting.clone(), token.write_restricted, token.user_deny_only);
            (token.user, token.session, token.kind, token.level, token.integrity, limits)
        };
        for (old, new) in pairs(before, after) {
            assert_eq!(identity(old), identity(new), "{call:?}");
        }
    });
}

#[test]
fn a_root_never_changes() {
    run_all(|Step { call, before, after, .. }| {
        for (old, new) in pairs(before, after) {
            assert_eq!(old.root, new.root, "{call:?}");
        }
    });
}

/// The request that a feed ended.
fn ended_request(step: &Step) -> Option<(usize, Request)> {
    let (station, body) = step.ended()?;
    Some((station, Request::read(&body)?))
}

/// The token of the station's live handle.
fn token_of(model: &Model, station: usize, handle: u32) -> Option<&Token> {
    let mut handles = model.handles.iter().flatten();
    let live = handles.find(|live| live.number == handle && live.station as usize == station)?;
    model.token(live.token)
}

/// The request that made a copy, its source and the copy; a clone's source is the partner.
fn copied<'a>(step: &Step<'a>) -> Option<(Request, &'a Token, &'a Token)> {
    let (station, request) = ended_request(step)?;
    let source = |handle| token_of(step.before, station, handle).expect("a success has a source");
    if step.status() != Some(0) {
        return None;
    }
    let source = match request {
        Request::Duplicate { handle, .. }
        | Request::Restrict { handle, .. }
        | Request::RestrictPacked { handle, .. } => source(handle),
        Request::GetLinked { handle } if step.before.next_token < step.after.next_token => {
            let partner = step.before.partner(source(handle).number);
            step.before.token(partner.expect("it is linked")).expect("a partner lives")
        }
        _ => return None,
    };
    let copy = step.after.token(step.before.next_token).expect("a success has a copy");
    Some((request, source, copy))
}

#[test]
fn a_copy_begins_with_no_privilege_that_its_source_lacked() {
    run_all(|step| {
        let Some((_, source, copy)) = copied(step) else { return };
        assert_eq!(copy.privileges.present & !source.privileges.present, 0);
        assert_eq!(copy.privileges.used, source.privileges.used);
        assert_eq!(source, step.after.token(source.number).expect("the source stays"));
    });
}

/// The numbers of the SIDs that a success of request 10 or 15 gave.
fn given(request: &Request, after: &Model) -> Option<Vec<u32>> {
    match request {
        Request::Restrict { sids, .. } => Some(sids.clone()),
        Request::RestrictPacked { sids, .. } => {
            sids.iter().map(|&sid| after.sids.number(sid)).collect()
        }
        _ => None,
    }
}

/// Each case came so often at least, unless one seed alone is run.
fn check_counts<C: Ord + Debug>(seen: &BTreeMap<C, usize>, cases: impl IntoIterator<Item = C>) {
    for case in cases {
        let count = seen.get(&case).copied().unwrap_or(0);
        assert!(one_seed().is_some() || count >= 20, "{case:?}: {count}");
    }
}

#[test]
fn a_copy_of_a_restricted_token_is_restricted_by_nothing_that_its_source_lacked() {
    let seen = RefCell::new(BTreeMap::new());
    let check = |step: &Step| {
        let Some((request, source, copy)) = copied(step) else { return };
        let is_anonymous = copy.kind == TokenType::Impersonation && copy.level == Level::Anonymous;
        let by = match request {
            Request::Duplicate { .. } if is_anonymous => return,
            Request::Duplicate { .. } => "duplicate",
            Request::GetLinked { .. } => "clone",
            Request::Restrict { sids, .. } if sids.is_empty() => "restrict by none",
            Request::RestrictPacked { sids, .. } if sids.is_empty() => "restrict by none, packed",
            Request::RestrictPacked { .. } => "restrict, packed",
            _ => "restrict",
        };
        if source.is_restricted() {
            assert!(copy.is_restricted(), "{:?}", step.call);
            let lacked = |sid: &u32| !source.restricting.contains(sid);
            assert!(!copy.restricting.iter().any(lacked), "{:?}", step.call);
            assert_eq!(copy.write_restricted, source.write_restricted, "{:?}", step.call);
            *seen.borrow_mut().entry(by).or_insert(0) += 1;
        }
    };
    run_all(check);
    each_seed(6000..6400, |seed, rng| run(seed, state(rng), 200, check));
    let packed = ["restrict by none, packed", "restrict, packed"];
    let others = ["duplicate", "restrict by none", "restrict", "clone"];
    check_counts(&seen.borrow(), packed.into_iter().chain(others));
}

/// Whether the items stand in the list in their order.
fn are_in_order(items: &[u32], list: &[u32]) -> bool {
    let mut list = list.iter();
    items.iter().all(|item| list.any(|other| other == item))
}

#[test]
fn a_restriction_keeps_each_sid_that_is_also_given_as_often_as_it_was() {
    let seen = RefCell::new(BTreeMap::new());
    run_all(|step| {
        let Some((request, source, copy)) = copied(step) else { return };
        let Some(sids) = given(&request, step.after) else { return };
        if !source.is_restricted() || sids.is_empty() {
            let kept = if sids.is_empty() { &source.restricting } else { &sids };
            assert_eq!(copy.restricting, *kept, "{:?}", step.call);
            return;
        }
        let (had, kept) = (&source.restricting, &copy.restricting);
        assert!(are_in_order(kept, had), "{:?}", step.call);
        let count = |list: &[u32], sid| list.iter().filter(|&&other| other == sid).count();
        for &sid in had.iter().chain(&sids) {
            let expected = if sids.contains(&sid) { count(had, sid) } else { 0 };
            assert_eq!(count(kept, sid), expected, "{:?}", step.call);
            let is_packed = matches!(request, Request::RestrictPacked { .. });
            let case = (is_packed, count(had, sid).min(2), count(&sids, sid).min(2));
            *seen.borrow_mut().entry(case).or_insert(0) += 1;
        }
    });
    // By number or packed; none, one or more in the source, and none, one or more given.
    let cases = (0..3).flat_map(|had| (0..3).map(move |given| (had, given)));
    let cases = cases.filter(|&case| case != (0, 0));
    let cases = cases.flat_map(|(had, given)| [(false, had, given), (true, had, given)]);
    check_counts(&seen.borrow(), cases);
}

#[test]
fn second_and_third_restrictions_come() {
    let mut seen = BTreeMap::new();
    each_seed(300..900, |seed, _| {
        let mut depths = BTreeMap::new();
        run(seed, with_restrictions(), 250, |step| {
            let Some((request, source, copy)) = copied(step) else { return };
            let first = u32::from(source.is_restricted());
            let depth = depths.get(&source.number).copied().unwrap_or(first);
            let narrows = given(&request, step.after).is_some_and(|sids| !sids.is_empty());
            let depth = if copy.is_restricted() { depth + u32::from(narrows) } else { 0 };
            depths.insert(copy.number, depth);
            if narrows {
                *seen.entry(depth).or_insert(0) += 1;
            }
        });
    });
    check_counts(&seen, [1, 2, 3]);
}

/// The token that a success of request 3 or 14 made.
fn created<'a>(step: &Step<'a>) -> Option<&'a Token> {
    let (_, request) = ended_request(step)?;
    let is_create = matches!(request, Request::Create { .. } | Request::CreatePacked { .. });
    (is_create && step.status() == Some(0))
        .then(|| step.after.token(step.before.next_token).expect("a success has a token"))
}

#[test]
fn a_root_is_none_or_the_number_of_a_started_or_created_token() {
    each_seed(700..760, |seed, _| {
        let first = Model::start();
        let mut given: BTreeSet<u64> = tokens(&first).map(|token| token.number).collect();
        run(seed, first, 500, |step| {
            if let Some(token) = created(step) {
                assert_eq!(token.root, token.number, "{:?}", step.call);
                given.insert(token.number);
            }
            for token in tokens(step.after) {
                let is_given = token.root == NO_ROOT || given.contains(&token.root);
                assert!(is_given && token.root <= token.number, "{:?}", step.call);
            }
        });
    });
}

/// The source of each copy by its number, and whether the copy is an anonymous one.
#[derive(Default)]
struct Sources(BTreeMap<u64, (u64, bool)>);

impl Sources {
    /// Takes note of the copy that a call made.
    fn note(&mut self, step: &Step) {
        let Some((request, source, copy)) = copied(step) else { return };
        let is_anonymous = matches!(request, Request::Duplicate { kind: 2, level: 0, .. });
        self.0.insert(copy.number, (source.number, is_anonymous));
    }

    /// The oldest token that it was made from, by how many copies, and how many copies ago the last
    /// anonymous one was.
    fn oldest(&self, mut number: u64) -> (u64, usize, Option<usize>) {
        let (mut copies, mut anonymous) = (0, None);
        while let Some(&(source, is_anonymous)) = self.0.get(&number) {
            if is_anonymous && anonymous.is_none() {
                anonymous = Some(copies);
            }
            number = source;
            copies += 1;
        }
        (number, copies, anonymous)
    }
}

#[test]
fn a_root_is_the_oldest_source_unless_one_on_the_way_is_anonymous() {
    let mut seen = BTreeMap::new();
    let starts = [Model::start, with_restrictions, with_copies];
    each_seed(1000..4000, |seed, _| {
        let first = starts[seed as usize % starts.len()]();
        let roots: BTreeMap<u64, u64> = tokens(&first).map(|t| (t.number, t.root)).collect();
        let mut sources = Sources::default();
        run(seed, first, 400, |step| {
            sources.note(step);
            let Some(token) = step.after.token(step.before.next_token) else { return };
            let (oldest, copies, anonymous) = sources.oldest(token.number);
            let root = roots.get(&oldest).copied().unwrap_or(oldest);
            let expected = if anonymous.is_some() { NO_ROOT } else { root };
            assert_eq!(token.root, expected, "{:?}", step.call);
            let is_gone = step.after.token(root).is_none();
            let kind = match anonymous {
                Some(0) => "anonymous",
                Some(_) => "of an anonymous one",
                None if root == NO_ROOT => "of an older anonymous one",
                None if is_gone => "root gone",
                None => "root lives",
            };
            *seen.entry((kind, copies.min(3))).or_insert(0) += 1;
        });
    });
    println!("tokens made, by how many copies: {seen:?}");
    let kinds = [("root lives", 0..4), ("root gone", 1..3), ("anonymous", 1..3)];
    let kinds = kinds.into_iter().chain([("of an anonymous one", 2..4)]);
    check_counts(&seen, kinds.flat_map(|(kind, copies)| copies.map(move |n| (kind, n))));
}

#[test]
fn class_9_tells_the_root_last() {
    let seen = RefCell::new(BTreeMap::new());
    let check = |step: &Step| {
        let Some((station, request)) = ended_request(step) else { return };
        let Request::Query { handle, class: 9, capacity } = request else { return };
        let (Some(token), Some(status @ (0 | 9))) =
            (token_of(step.before, station, handle), step.status())
        else {
            return;
        };
        let mut report = Vec::new();
        for number in [token.number, token.session, token.modified, token.kind as u64, token.root] {
            write_number(number, &mut report);
        }
        let size = report.len();
        let expected = if status == 0 { report } else { vec![size as u8] };
        assert_eq!(step.fed.answer[2..], expected, "{:?}", step.call);
        assert_eq!(status == 0, size <= capacity as usize, "{:?}", step.call);
        let kind = match token.root {
            NO_ROOT => "none",
            root if root == token.number => "its own",
            _ => "another",
        };
        let short = size.saturating_sub(capacity as usize).min(2);
        *seen.borrow_mut().entry((kind, short)).or_insert(0) += 1;
    };
    run_all(check);
    each_seed(4000..4400, |seed, _| run(seed, with_copies(), 200, check));
    println!("reports, by root and bytes that the capacity lacks: {:?}", seen.borrow());
    let kinds = ["none", "its own", "another"];
    check_counts(&seen.borrow(), kinds.into_iter().flat_map(|kind| [(kind, 0), (kind, 1)]));
}

#[test]
fn the_level_in_force_is_never_above_the_tokens_own() {
    run_all(|Step { call, after, .. }| {
        for client in after.stations.iter().filter_map(|station| station.client) {
            let token = after.token(client.token).expect("a client's token lives");
            assert_eq!(token.kind, TokenType::Impersonation, "{call:?}");
            assert!(client.level <= token.level, "{call:?}");
        }
    });
}

/// The numbers that a success answers after its length and its status, a byte each.
fn answered(step: &Step) -> Vec<u64> {
    let mut fields = Reader::new(&step.fed.answer[2..]);
    let mut numbers = Vec::new();
    while !fields.at_end() {
        numbers.push(fields.u64().expect("a number"));
    }
    numbers
}

/// A client as request 13 answers it.
fn told(client: Option<Client>) -> [u64; 2] {
    client.map_or([0, 0], |client| [client.token, client.level as u64])
}

#[test]
fn what_a_station_acts_for_changes_only_by_its_own_12_and_13() {
    let seen = RefCell::new(BTreeMap::new());
    run_all(|step| {
        let request = ended_request(step).filter(|_| step.status() == Some(0));
        for station in 0..STATIONS {
            let [old, new] = [step.before, step.after].map(|model| model.stations[station].client);
            let by = match request {
                Some((at, Request::Impersonate { handle })) if at == station => {
                    let token = token_of(step.before, station, handle).expect("a success has one");
                    let level = answered(step)[..] == [told(new)[1]];
                    assert!(level && told(new)[0] == token.number, "{:?}", step.call);
                    "12"
                }
                Some((at, Request::Revert)) if at == station => {
                    assert_eq!((new, &answered(step)[..]), (None, &told(old)[..]));
                    "13"
                }
                _ => {
                    assert_eq!(old, new, "{:?}", step.call);
                    "no request"
                }
            };
            *seen.borrow_mut().entry((by, old.is_some(), new.is_some())).or_insert(0) += 1;
        }
    });
    println!("requests, by acting before and after: {:?}", seen.borrow());
    let changes = [("12", false, true), ("12", true, true), ("13", false, false)];
    check_counts(&seen.borrow(), changes.into_iter().chain([("13", true, false)]));
}

/// The state without clients, without the used bit that request 12 sets and without one token.
fn but_for(model: &Model, station: usize, gone: Option<u64>) -> Model {
    let mut model = model.clone();
    model.stations[station].client = None;
    let own = model.stations[station].token;
    for slot in &mut model.tokens {
        match slot {
            Some(token) if token.number == own => token.privileges.used |= 1 << IMPERSONATE,
            Some(token) if Some(token.number) == gone => *slot = None,
            _ => {}
        }
    }
    model
}

#[test]
fn requests_12_and_13_change_nothing_else() {
    let seen = RefCell::new(BTreeMap::new());
    let check = |step: &Step| {
        let Some((station, Request::Impersonate { .. } | Request::Revert)) = ended_request(step)
        else {
            return;
        };
        let old = step.before.stations[station].client.map(|client| client.token);
        let gone = old.filter(|&token| !step.after.is_referred_to(token));
        let [before, after] =
            [step.before, step.after].map(|model| but_for(&without_streams(model), station, gone));
        assert_eq!(before, after, "{:?}", step.call);
        assert!(gone.is_none_or(|token| step.after.token(token).is_none()), "{:?}", step.call);
        *seen.borrow_mut().entry(gone.is_some()).or_insert(0) += 1;
    };
    run_all(check);
    each_seed(5000..5400, |seed, rng| run(seed, state(rng), 200, check));
    println!("tokens freed by requests 12 and 13: {:?}", seen.borrow());
    check_counts(&seen.borrow(), [false, true]);
}

#[test]
fn a_token_lives_exactly_while_something_refers_to_it() {
    let seen = RefCell::new(BTreeMap::new());
    run_all(|Step { call, after, .. }| {
        for token in tokens(after) {
            assert!(after.is_referred_to(token.number), "{call:?}");
            let references = after.references().filter(|&number| number == token.number).count();
            let clients = after.stations.iter().filter_map(|station| station.client);
            let by_clients = clients.filter(|client| client.token == token.number).count();
            *seen.borrow_mut().entry(references == by_clients).or_insert(0) += 1;
        }
        assert!(after.references().all(|number| after.token(number).is_some()), "{call:?}");
    });
    println!("tokens that only clients keep alive: {:?}", seen.borrow());
    check_counts(&seen.borrow(), [true]);
}

#[test]
fn refusals_alter_only_the_stream() {
    run_all(|step| {
        let Step { call, before, after, fed } = step;
        if fed.refusal != 0 {
            assert_eq!(before, after, "{call:?}");
            assert_eq!((fed.used, fed.answer.len()), (0, 0), "{call:?}");
        }
        if step.status() != Some(0) {
            assert_eq!(without_streams(before), without_streams(after), "{call:?}");
        }
    });
}

#[test]
fn other_stations_streams_are_left_alone() {
    run_all(|Step { call, before, after, .. }| {
        let (Call::Feed { station, .. } | Call::Reconnect { station }) = call;
        for other in (0..STATIONS).filter(|&other| other != *station as usize) {
            assert_eq!(before.stations[other], after.stations[other], "{call:?}");
        }
    });
}

#[test]
fn numbers_go_up_and_tokens_stay_in_their_slots() {
    run_all(|Step { call, before, after, .. }| {
        assert!(before.next_token <= after.next_token, "{call:?}");
        assert!(before.next_handle <= after.next_handle, "{call:?}");
        for (old, new) in before.tokens.iter().zip(&after.tokens) {
            if let (Some(old), Some(new)) = (old, new) {
                assert_eq!(old.number, new.number, "{call:?}");
            }
        }
        let fresh = |token: &&Token| before.token(token.number).is_none();
        for token in tokens(after).filter(fresh) {
            assert_eq!((token.number, token.modified), (before.next_token, token.number));
        }
    });
}

#[test]
fn modified_steps_by_one_on_the_adjusted_token_only() {
    run_all(|step| {
        let Step { call, before, after, .. } = step;
        let request = ended_request(step).map(|(_, request)| request);
        let is_adjustment = matches!(
            request,
            Some(
                Request::Privileges { .. }
                    | Request::Groups { .. }
                    | Request::Scope { .. }
                    | Request::Default { .. }
            )
        ) && step.status() == Some(0);
        let stepped: Vec<_> = pairs(before, after)
            .into_iter()
            .filter(|(old, new)| old.modified != new.modified)
            .collect();
        assert_eq!(stepped.len(), usize::from(is_adjustment), "{call:?}");
        for (old, new) in stepped {
            assert_eq!(old.modified.wrapping_add(1), new.modified, "{call:?}");
        }
    });
}

/// The two words that a success of request 5 answers after its length and its status, a byte each.
fn previous_words(answer: &[u8]) -> (u64, u64) {
    let mut report = Reader::new(&answer[2..]);
    let words = (report.u64().expect("present"), report.u64().expect("enabled"));
    assert!(report.at_end());
    words
}

#[test]
fn request_5_reports_how_each_named_privilege_was() {
    let seen = RefCell::new(BTreeMap::new());
    run_all(|step| {
        let Some((station, request)) = ended_request(step) else { return };
        let Request::Privileges { handle, entries } = request else { return };
        if step.status() != Some(0) {
            return;
        }
        let before = token_of(step.before, station, handle).expect("a success has a token");
        let (present, enabled) = previous_words(&step.fed.answer);
        let words = (before.privileges.present, before.privileges.enabled);
        if entries == [RESET_PRIVILEGES] {
            assert_eq!((present, enabled), words, "{:?}", step.call);
            return;
        }
        let named = entries.iter().fold(0, |named, &(privilege, _)| named | 1 << privilege);
        assert_eq!((present, enabled), (words.0 & named, words.1 & named), "{:?}", step.call);
        for (privilege, action) in entries {
            let was = (present >> privilege & 1, enabled >> privilege & 1);
            *seen.borrow_mut().entry((was, action)).or_insert(0) += 1;
        }
    });
    // Absent, disabled and enabled ones, each with all that may be asked of it.
    let [absent, disabled, enabled] = [(0, 0), (1, 0), (1, 1)];
    let actions = [DISABLE, ENABLE, REMOVE];
    let whatever = [disabled, enabled].into_iter().flat_map(|was| actions.map(|to| (was, to)));
    check_counts(&seen.borrow(), whatever.chain([(absent, DISABLE), (absent, REMOVE)]));
}
