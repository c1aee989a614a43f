//! Conditions, R38 of docs/RULES.md: request 18 through the crate.

mod common;

use common::{ask, create, made, refused, sid};
use obriska::codec::{List, Request};
use obriska::{number, Broker, Condition, Refusal, Token, MAX_BODY, MAX_DEPTH};

/// The privileges of the operator's token: one is enabled, one is not; no other is there.
const TCB: u32 = 7;
const SHUTDOWN: u32 = 19;
const DEBUG: u32 = 20;

/// The numbers that the SIDs of its user, of its groups, and one that it is restricted to get in the
/// table: they are entered in this order.
const USER: u32 = 32;
const OPERATORS: u32 = 33;
const MAINTENANCE: u32 = 34;
const NIGHT_SHIFT: u32 = 35;
const LOCK_CREW: u32 = 36;
const RESTRICTING: u32 = 37;

/// Attributes of a group.
const MANDATORY: u32 = 1;
const ENABLED_BY_DEFAULT: u32 = 2;
const ENABLED: u32 = 4;
const DENY_ONLY: u32 = 0x10;

/// Station 0's handles: on the operator's token, and on its own token without right QUERY.
const WITH_QUERY: u32 = 2;
const WITHOUT_QUERY: u64 = 3;

/// An operator's token, restricted, beside the start's.
fn with_an_operator() -> Broker {
    let present = 1 << TCB | 1 << SHUTDOWN;
    let groups = [
        [OPERATORS, MANDATORY | ENABLED_BY_DEFAULT],
        [MAINTENANCE, 0],
        [NIGHT_SHIFT, DENY_ONLY],
        [LOCK_CREW, 0], // twice: the second one is enabled
        [LOCK_CREW, ENABLED_BY_DEFAULT],
    ];
    let mut broker = Broker::start();
    let created = create(&mut broker, USER, [5, 8192, present, 1 << TCB], &groups);
    let sids = [sid(RESTRICTING)];
    let restrict = Request::RestrictToSids {
        handle: created as u32,
        write_restricted: 0,
        removed: 0,
        deny: List::EMPTY,
        sids: (&sids).into(),
    };
    let restricted = made(&mut broker, &restrict);
    ask(&mut broker, &[2, created]);
    assert_eq!(restricted, WITH_QUERY.into());
    assert_eq!(ask(&mut broker, &[1, 0x1E7]), [WITHOUT_QUERY]);
    broker
}

/// What the broker answers, which changes nothing.
fn holds(broker: &mut Broker, condition: &Condition) -> bool {
    let before = broker.clone();
    let request = condition.request(WITH_QUERY).expect("it fits a request");
    let answers = broker.feed(0, &request).expect("station 0");
    assert_eq!(*broker, before, "{condition}");
    Condition::read_answer(answers[0].fields()).unwrap_or_else(|| panic!("{condition}"))
}

/// What it means, by R38.
fn meaning(condition: &Condition, token: &Token) -> bool {
    match condition {
        Condition::All(inner) => inner.iter().all(|condition| meaning(condition, token)),
        Condition::Any(inner) => inner.iter().any(|condition| meaning(condition, token)),
        Condition::Not(inner) => !meaning(inner, token),
        Condition::Enabled(privilege) => token.privileges.enables(*privilege),
        Condition::Group(sid) => {
            token.groups.iter().any(|group| group.sid == *sid && group.attributes & ENABLED != 0)
        }
        _ => panic!("{condition} is of an unknown kind"),
    }
}

#[test]
fn a_privilege_holds_where_it_is_enabled_on_the_handles_token() {
    let mut broker = with_an_operator();
    let answers = [TCB, SHUTDOWN, DEBUG].map(|p| holds(&mut broker, &Condition::enabled(p)));
    assert_eq!(answers, [true, false, false]); // the station's own token has all of them
}

#[test]
fn a_group_holds_where_one_of_the_sid_is_enabled() {
    let mut broker = with_an_operator();
    for sid in [OPERATORS, LOCK_CREW] {
        assert!(holds(&mut broker, &Condition::group(sid)), "{sid}");
    }
    for sid in [MAINTENANCE, NIGHT_SHIFT, USER, RESTRICTING, 0, u32::MAX] {
        assert!(!holds(&mut broker, &Condition::group(sid)), "{sid}");
    }
}

#[test]
fn lists_and_not_mean_what_they_say() {
    let mut broker = with_an_operator();
    let [yes, no] = [Condition::enabled(TCB), Condition::enabled(SHUTDOWN)];
    let mut answer = |condition| holds(&mut broker, &condition);
    assert!(answer(Condition::all([])) && !answer(Condition::any([])));
    assert!(answer(Condition::not(no.clone())) && !answer(Condition::not(yes.clone())));
    for (first, second, all, any) in [
        (&yes, &yes, true, true),
        (&yes, &no, false, true),
        (&no, &yes, false, true),
        (&no, &no, false, false),
    ] {
        let both = [first.clone(), second.clone()];
        assert_eq!(answer(Condition::all(both.clone())), all);
        assert_eq!(answer(Condition::any(both)), any);
    }
}

#[test]
fn the_answer_is_of_the_token_as_it_is_now() {
    let mut broker = with_an_operator();
    let page = Condition::all([Condition::enabled(SHUTDOWN), Condition::group(MAINTENANCE)]);
    assert!(!holds(&mut broker, &page));
    ask(&mut broker, &[5, WITH_QUERY.into(), 1, SHUTDOWN.into(), 2]);
    assert!(!holds(&mut broker, &page));
    ask(&mut broker, &[6, WITH_QUERY.into(), 1, 1, 1]);
    assert!(holds(&mut broker, &page));
}

/// Numbers that look like chance (xorshift).
struct Chance(u64);

impl Chance {
    fn below(&mut self, end: u64) -> u64 {
        self.0 ^= self.0 << 13;
        self.0 ^= self.0 >> 7;
        self.0 ^= self.0 << 17;
        self.0 % end
    }

    fn one_of(&mut self, numbers: &[u32]) -> u32 {
        numbers[self.below(numbers.len() as u64) as usize]
    }

    /// A condition that is at most so deep.
    fn condition(&mut self, depth: usize) -> Condition {
        match self.below(5) {
            0 => Condition::enabled(self.one_of(&[TCB, SHUTDOWN, DEBUG])),
            1 => Condition::group(self.one_of(&[OPERATORS, MAINTENANCE, NIGHT_SHIFT, LOCK_CREW])),
            2 if depth > 1 => Condition::not(self.condition(depth - 1)),
            3 => Condition::all(self.list(depth)),
            _ => Condition::any(self.list(depth)),
        }
    }

    fn list(&mut self, depth: usize) -> Vec<Condition> {
        let count = if depth > 1 { self.below(5) } else { 0 };
        (0..count).map(|_| self.condition(depth - 1)).collect()
    }
}

#[test]
fn any_condition_is_answered_by_its_meaning() {
    let mut broker = with_an_operator();
    let operator = broker.token(3).expect("it is live");
    let mut chance = Chance(0x0B21_5CA0);
    let mut answers = [0; 2];
    let mut deepest = 0;
    for _ in 0..2000 {
        let condition = chance.condition(MAX_DEPTH);
        let expected = meaning(&condition, &operator);
        assert_eq!(holds(&mut broker, &condition), expected, "{condition}");
        answers[usize::from(expected)] += 1;
        deepest = deepest.max(condition.depth());
    }
    assert!(answers.iter().all(|&count| count > 500), "{answers:?}");
    assert_eq!(deepest, MAX_DEPTH);
}

/// Request 18 with `outer` so many times before `innermost`.
fn nested(outer: &[u64], times: usize, innermost: &[u64]) -> Vec<u64> {
    [&[18, WITH_QUERY.into()], &outer.repeat(times)[..], innermost].concat()
}

#[test]
fn eight_deep_is_answered_and_nine_deep_is_refused_by_1() {
    let mut broker = with_an_operator();
    let innermost: [(&[u64], u64); 4] = [(&[1, 0], 1), (&[2, 0], 0), (&[4, 7], 1), (&[5, 30], 0)];
    for (innermost, value) in innermost {
        let [nots, lists] = [&[3][..], &[1, 1]]
            .map(|outer| ask(&mut broker, &nested(outer, MAX_DEPTH - 1, innermost)));
        assert_eq!((nots, lists), (vec![1 - value], vec![value])); // an odd number of them
        for outer in [&[3][..], &[1, 1], &[2, 1]] {
            let deeper = nested(outer, MAX_DEPTH, innermost);
            assert_eq!(refused(&mut broker, &deeper), Some(Refusal::Layout));
        }
    }
}

#[test]
fn the_deepest_of_a_list_counts() {
    let mut broker = with_an_operator();
    let seven_deep = [&[3; 6][..], &[4, 7]].concat();
    let eight_deep = [&[3; 7][..], &[4, 7]].concat();
    let list = |second: &[u64]| [&[18, WITH_QUERY.into(), 1, 3, 4, 7], second, &[4, 7]].concat();
    assert_eq!(ask(&mut broker, &list(&seven_deep)), [1]);
    assert_eq!(refused(&mut broker, &list(&eight_deep)), Some(Refusal::Layout));
}

#[test]
fn what_is_no_condition_is_refused_by_1_before_the_handle_is_looked_at() {
    let mut broker = with_an_operator();
    let too_large = u64::from(u32::MAX) + 1;
    let unknown: [&[u64]; 4] = [&[0], &[6, 7], &[3, 0, 4, 7], &[2, 2, 4, 37, 6]];
    let cut_short: [&[u64]; 8] =
        [&[], &[1], &[1, 1], &[2, 2, 4, 7], &[3], &[4], &[5], &[1, too_large - 1]];
    let left_over: [&[u64]; 3] = [&[4, 37, 0], &[1, 0, 4, 7], &[2, 1, 4, 7, 4, 7]];
    let too_wide: [&[u64]; 4] = [&[4, too_large], &[5, too_large], &[1, too_large], &[too_large]];
    for condition in [&unknown[..], &cut_short, &left_over, &too_wide].concat() {
        for handle in [WITH_QUERY.into(), WITHOUT_QUERY, 99] {
            let request = [&[18, handle], condition].concat();
            assert_eq!(refused(&mut broker, &request), Some(Refusal::Layout), "{condition:?}");
        }
    }
    for request in [&[18][..], &[18, too_large, 4, 7]] {
        assert_eq!(refused(&mut broker, request), Some(Refusal::Layout));
    }
}

#[test]
fn a_number_not_in_its_shortest_form_is_refused_by_1() {
    let mut broker = with_an_operator();
    let before = broker.clone();
    let kind = [0x05, 18, 2, 0x84, 0x00, 7];
    let privilege = [0x05, 18, 2, 4, 0x87, 0x00];
    let count = [0x05, 18, 2, 1, 0x80, 0x00];
    for frame in [kind, privilege, count] {
        let answers = broker.feed(0, &frame).expect("station 0");
        assert_eq!(answers[0].refusal(), Some(Refusal::Layout), "{frame:?}");
        assert_eq!(broker, before);
    }
}

#[test]
fn then_come_the_handle_the_right_and_unknown_privileges() {
    let mut broker = with_an_operator();
    let mut refusal =
        |handle, condition: &[u64]| refused(&mut broker, &[&[18, handle], condition].concat());
    let unknown = [4, 37];
    assert_eq!(refusal(99, &unknown), Some(Refusal::Handle));
    assert_eq!(refusal(WITHOUT_QUERY, &unknown), Some(Refusal::Right));
    for privilege in [0, 1, 37, u32::MAX.into()] {
        assert_eq!(refusal(WITH_QUERY.into(), &[4, privilege]), Some(Refusal::Field));
    }
    for privilege in [2, 36] {
        assert!(!holds(&mut broker, &Condition::enabled(privilege)));
    }
}

#[test]
fn an_unknown_privilege_is_refused_where_an_earlier_condition_decides_too() {
    let mut broker = with_an_operator();
    let unknown = || Condition::enabled(37);
    let decided = [
        Condition::any([Condition::all([]), unknown()]),
        Condition::all([Condition::any([]), unknown()]),
        Condition::not(Condition::all([unknown(), Condition::any([])])),
    ];
    for condition in decided {
        let request = number::read_all(&condition.to_bytes().expect("it fits")).expect("numbers");
        let request = [&[18, WITH_QUERY.into()], &request[..]].concat();
        assert_eq!(refused(&mut broker, &request), Some(Refusal::Field), "{condition}");
    }
}

#[test]
fn another_stations_handle_is_refused_by_2() {
    let mut broker = with_an_operator();
    let request = Condition::all([]).request(WITH_QUERY).expect("it fits");
    let answers = broker.feed(1, &request).expect("station 1");
    assert_eq!(answers[0].refusal(), Some(Refusal::Handle));
}

#[test]
fn the_longest_condition_is_answered() {
    let mut broker = with_an_operator();
    let mut groups = vec![Condition::group(1); 1019];
    groups.extend([Condition::group(300), Condition::group(LOCK_CREW)]);
    let longest = Condition::any(groups);
    assert_eq!(longest.request(WITH_QUERY).expect("it fits").len(), 2 + MAX_BODY);
    assert!(holds(&mut broker, &longest));
}
