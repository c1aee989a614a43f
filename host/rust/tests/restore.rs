//! Putting back, R54 of docs/RULES.md: what request 5 changed, by its report, through the crate.

mod common;

use common::{answer, answer_at, ask, frame, refused};
use obriska::{Broker, PreviousPrivileges, PrivilegeState, Refusal, Restore, RestoreError};

/// The privileges of the screen's token: enabled or not, by default or not; and one that is absent.
const TCB: u64 = 7;
const SECURITY: u64 = 8;
const SHUTDOWN: u64 = 19;
const DEBUG: u64 = 20;
const AUDIT: u64 = 21;
const NAMED: [u64; 5] = [TCB, SECURITY, SHUTDOWN, DEBUG, AUDIT];

/// What creating and installing a token need.
const CREATE_TOKEN: u64 = 2;
const ASSIGN_PRIMARY: u64 = 3;

/// What an entry of request 5 asks for.
const DISABLE: u64 = 0;
const ENABLE: u64 = 2;
const REMOVE: u64 = 4;
const RESET: [u64; 2] = [0, 0x8000_0000];

/// The screen's token, and station 0's handle on it.
const TOKEN: u64 = 2;
const HANDLE: u32 = 1;

/// The screen's token is station 0's own. Tcb and Security are enabled, Shutdown and Debug are not;
/// Tcb and Shutdown would be by default. Audit is absent.
fn with_a_screen() -> Broker {
    let working = 1 << CREATE_TOKEN | 1 << ASSIGN_PRIMARY;
    let default = working | 1 << TCB | 1 << SHUTDOWN;
    let present = default | 1 << SECURITY | 1 << DEBUG;
    let mut broker = Broker::start();
    assert_eq!(ask(&mut broker, &[3, 18, 5, 8192, present, default, 0]), [HANDLE.into()]);
    ask(&mut broker, &request(&[[SECURITY, ENABLE], [SHUTDOWN, DISABLE]]));
    ask(&mut broker, &[11, HANDLE.into()]);
    let states = NAMED.map(|privilege| state(&mut broker.clone(), privilege));
    assert_eq!(states[..2], [PrivilegeState::Enabled; 2]);
    assert_eq!(states[2..4], [PrivilegeState::Disabled; 2]);
    assert_eq!(states[4], PrivilegeState::Absent);
    broker
}

/// How a privilege of the screen's token is, by a report.
fn state(broker: &mut Broker, privilege: u64) -> PrivilegeState {
    let report = answer(broker, &request(&[[privilege, DISABLE]]));
    PreviousPrivileges::read(report.fields()).expect("two words").state(privilege as u32)
}

/// Request 5 on the screen's handle.
fn request(entries: &[[u64; 2]]) -> Vec<u64> {
    [&[5, HANDLE.into(), entries.len() as u64], entries.as_flattened()].concat()
}

/// Sends request 5 and gives what puts it back.
fn sent(broker: &mut Broker, entries: &[[u64; 2]]) -> Result<Restore, RestoreError> {
    let report = answer(broker, &request(entries));
    Restore::new(&frame(&request(entries)), report.bytes())
}

/// The privilege words of a token but used: present, enabled, default.
fn words(broker: &Broker, token: u64) -> [u64; 3] {
    let privileges = broker.token(token).expect("it is live").privileges;
    [privileges.present, privileges.enabled, privileges.default]
}

fn used(broker: &Broker, token: u64) -> u64 {
    broker.token(token).expect("it is live").privileges.used
}

/// Puts back at a station, on a handle, which succeeds.
fn puts_back(broker: &mut Broker, restore: &Restore, station: u32, handle: u32) {
    let answer = answer_at(broker, station, &restore.request(handle));
    assert_eq!(answer.refusal(), None);
}

/// All is done by the screen's handle and nothing happens meanwhile: the request's bytes are these.
fn is_put_back_by(entries: &[[u64; 2]], undoing: &[[u64; 2]]) {
    let mut broker = with_a_screen();
    let before = words(&broker, TOKEN);
    let restore = sent(&mut broker, entries).expect("a report of enabling and disabling");
    assert_eq!(restore.request(HANDLE), frame(&request(undoing)));
    puts_back(&mut broker, &restore, 0, HANDLE);
    assert_eq!(words(&broker, TOKEN), before);
}

#[test]
fn enabling_is_put_back_by_disabling() {
    is_put_back_by(&[[SHUTDOWN, ENABLE]], &[[SHUTDOWN, DISABLE]]);
    is_put_back_by(&[[TCB, ENABLE]], &[[TCB, ENABLE]]); // it was enabled already
}

#[test]
fn disabling_is_put_back_by_enabling() {
    is_put_back_by(&[[SECURITY, DISABLE]], &[[SECURITY, ENABLE]]);
    is_put_back_by(&[[DEBUG, DISABLE]], &[[DEBUG, DISABLE]]); // it was disabled already
}

#[test]
fn an_absent_one_that_was_disabled_is_put_back_by_disabling() {
    is_put_back_by(&[[AUDIT, DISABLE]], &[[AUDIT, DISABLE]]);
}

#[test]
fn several_are_put_back_at_once_in_the_requests_order() {
    is_put_back_by(
        &[[DEBUG, ENABLE], [TCB, DISABLE], [AUDIT, DISABLE], [SECURITY, ENABLE]],
        &[[DEBUG, DISABLE], [TCB, ENABLE], [AUDIT, DISABLE], [SECURITY, ENABLE]],
    );
}

/// All lists that name each of these privileges not at all, to disable it, or to enable it.
fn switches(privileges: &[u64]) -> Vec<Vec<[u64; 2]>> {
    let Some((&privilege, others)) = privileges.split_first() else {
        return vec![vec![]];
    };
    let with = |entry: Option<[u64; 2]>| {
        let lists = switches(others).into_iter();
        lists.map(move |list| entry.into_iter().chain(list).collect())
    };
    let entries = [None, Some([privilege, DISABLE]), Some([privilege, ENABLE])];
    entries.into_iter().flat_map(with).collect()
}

/// What a screen does meanwhile: everything but another success of request 5 on its token.
fn works(broker: &mut Broker) {
    let handle = HANDLE.into();
    ask(broker, &[4, handle, 3, 1024]);
    ask(broker, &[8, handle, 0, 0, 1, 1, 0x0A]);
    let other = ask(broker, &[9, handle, 1, 0, 0x1EF])[0];
    ask(broker, &[5, other, 2, SECURITY, DISABLE, DEBUG, REMOVE]); // on the copy
    ask(broker, &[18, handle, 4, SHUTDOWN]);
    let second = ask(broker, &[1, 0x1EF])[0]; // on the same token
    ask(broker, &[2, second]);
    let unknown = request(&[[37, ENABLE]]);
    assert_eq!(refused(broker, &unknown), Some(Refusal::Field));
    ask(broker, &[2, other]);
}

#[test]
fn every_list_of_switches_is_put_back() {
    let start = with_a_screen();
    let mut put_back = 0;
    for entries in switches(&NAMED) {
        let mut broker = start.clone();
        let is_refused = entries.is_empty() || entries.contains(&[AUDIT, ENABLE]);
        match sent(&mut broker, &entries) {
            Ok(restore) => {
                works(&mut broker);
                puts_back(&mut broker, &restore, 0, HANDLE);
                assert_eq!(words(&broker, TOKEN), words(&start, TOKEN), "{entries:?}");
                put_back += 1;
            }
            Err(error) => assert!(is_refused, "{entries:?}: {error}"),
        }
    }
    assert_eq!(put_back, 2 * 3_usize.pow(4) - 1); // Audit is absent; one list is empty
}

#[test]
fn any_handle_of_the_token_that_has_the_right_does() {
    let mut broker = with_a_screen();
    let before = words(&broker, TOKEN);
    let restore = sent(&mut broker, &[[SHUTDOWN, ENABLE], [TCB, DISABLE]]).expect("a report");
    assert_eq!(ask(&mut broker, &[1, 0x20]), [2]);
    assert_eq!(ask(&mut broker, &[1, 0x1CF]), [3]); // all rights but that one
    ask(&mut broker, &[2, HANDLE.into()]);
    for (handle, refusal) in [(HANDLE, Refusal::Handle), (3, Refusal::Right)] {
        let answer = answer_at(&mut broker, 0, &restore.request(handle));
        assert_eq!(answer.refusal(), Some(refusal));
    }
    puts_back(&mut broker, &restore, 0, 2);
    assert_eq!(words(&broker, TOKEN), before);
}

#[test]
fn another_stations_handle_of_the_token_does_for_that_station() {
    let mut broker = Broker::start();
    assert_eq!(ask(&mut broker, &[1, 0x28]), [1]); // SYSTEM's token, which all stations have
    ask(&mut broker, &request(&[[DEBUG, DISABLE]]));
    let before = words(&broker, 1);
    let restore = sent(&mut broker, &[[DEBUG, ENABLE], [AUDIT, DISABLE]]).expect("a report");
    assert_eq!(answer_at(&mut broker, 5, &frame(&[1, 0x20])).bytes(), [2, 0, 2]);
    ask(&mut broker, &[2, 1]);
    let not_its_own = answer_at(&mut broker, 0, &restore.request(2));
    assert_eq!(not_its_own.refusal(), Some(Refusal::Handle));
    puts_back(&mut broker, &restore, 5, 2);
    assert_eq!(words(&broker, 1), before);
}

#[test]
fn the_stations_own_token_may_be_another_by_then() {
    let mut broker = with_a_screen();
    let before = words(&broker, TOKEN);
    let restore = sent(&mut broker, &[[DEBUG, ENABLE]]).expect("a report");
    let other = ask(&mut broker, &[3, 18, 5, 0, 0, 0, 0])[0];
    ask(&mut broker, &[11, other]);
    puts_back(&mut broker, &restore, 0, HANDLE);
    assert_eq!(words(&broker, TOKEN), before);
}

#[test]
fn used_marks_stay() {
    let mut broker = with_a_screen();
    let before = words(&broker, TOKEN);
    assert_eq!(used(&broker, TOKEN), 0);
    let restore = sent(&mut broker, &[[SHUTDOWN, ENABLE], [TCB, ENABLE]]).expect("a report");
    ask(&mut broker, &[3, 18, 5, 0, 0, 0, 0]); // needs CreateToken
    ask(&mut broker, &[7, HANDLE.into(), 9]); // needs Tcb
    let marks = 1 << CREATE_TOKEN | 1 << TCB;
    assert_eq!(used(&broker, TOKEN), marks);
    puts_back(&mut broker, &restore, 0, HANDLE);
    assert_eq!((words(&broker, TOKEN), used(&broker, TOKEN)), (before, marks));
}

#[test]
fn what_puts_the_putting_back_back_is_the_change_again() {
    let mut broker = with_a_screen();
    let restore = sent(&mut broker, &[[SHUTDOWN, ENABLE], [TCB, DISABLE]]).expect("a report");
    let changed = words(&broker, TOKEN);
    let back = restore.request(HANDLE);
    let report = answer_at(&mut broker, 0, &back);
    let again = Restore::new(&back, report.bytes()).expect("a report");
    puts_back(&mut broker, &again, 0, HANDLE);
    assert_eq!(words(&broker, TOKEN), changed);
}

#[test]
fn a_success_of_request_5_in_between_ends_the_promise() {
    let mut broker = with_a_screen();
    let before = words(&broker, TOKEN);
    let restore = sent(&mut broker, &[[TCB, DISABLE]]).expect("a report");
    let mut other_privilege = broker.clone();
    ask(&mut other_privilege, &request(&[[DEBUG, ENABLE]]));
    puts_back(&mut other_privilege, &restore, 0, HANDLE);
    let [present, enabled, default] = before;
    assert_eq!(words(&other_privilege, TOKEN), [present, enabled | 1 << DEBUG, default]);

    ask(&mut broker, &request(&[[TCB, REMOVE]]));
    let answer = answer_at(&mut broker, 0, &restore.request(HANDLE));
    assert_eq!(answer.refusal(), Some(Refusal::Field)); // Tcb is absent now
}

/// Beyond the claim, by the rules: the second putting back leaves the words that the first one asks for.
#[test]
fn two_requests_are_put_back_last_one_first() {
    let mut broker = with_a_screen();
    let before = words(&broker, TOKEN);
    let first = sent(&mut broker, &[[TCB, DISABLE], [DEBUG, ENABLE]]).expect("a report");
    let between = words(&broker, TOKEN);
    let second = sent(&mut broker, &[[TCB, ENABLE], [SECURITY, DISABLE]]).expect("a report");
    puts_back(&mut broker, &second, 0, HANDLE);
    assert_eq!(words(&broker, TOKEN), between);
    puts_back(&mut broker, &first, 0, HANDLE);
    assert_eq!(words(&broker, TOKEN), before);
}

#[test]
fn a_reset_a_removal_or_a_refusal_is_an_error() {
    let broker = with_a_screen();
    let error = |entries: &[[u64; 2]]| sent(&mut broker.clone(), entries).expect_err("no restore");
    assert_eq!(error(&[RESET]), RestoreError::Reset);
    for privilege in [TCB, AUDIT] {
        assert_eq!(error(&[[privilege, REMOVE]]), RestoreError::Removal(privilege as u32));
    }
    let mixed = [[SHUTDOWN, ENABLE], [DEBUG, REMOVE], [TCB, REMOVE]];
    assert_eq!(error(&mixed), RestoreError::Removal(DEBUG as u32));
    for entries in [[AUDIT, ENABLE], [37, DISABLE], [TCB, 3], [0, DISABLE]] {
        assert_eq!(error(&[entries]), RestoreError::Refused(Refusal::Field));
    }
    assert_eq!(error(&[RESET, RESET]), RestoreError::Refused(Refusal::Field));
}

#[test]
fn by_hand_a_removal_of_an_enabled_one_is_not_put_back() {
    let mut broker = with_a_screen();
    let report = answer(&mut broker, &request(&[[TCB, REMOVE]]));
    assert_eq!(report.bytes(), [0x05, 0x00, 0x80, 0x01, 0x80, 0x01]); // it was enabled
    assert_eq!(refused(&mut broker, &request(&[[TCB, ENABLE]])), Some(Refusal::Field));
    assert_eq!(state(&mut broker, TCB), PrivilegeState::Absent);
}

#[test]
fn by_hand_a_removal_of_a_disabled_one_leaves_it_absent() {
    let mut broker = with_a_screen();
    let before = words(&broker, TOKEN);
    let report = answer(&mut broker, &request(&[[SHUTDOWN, REMOVE]]));
    assert_eq!(report.bytes(), [0x05, 0x00, 0x80, 0x80, 0x20, 0x00]); // it was disabled
    let after = words(&broker, TOKEN);
    ask(&mut broker, &request(&[[SHUTDOWN, DISABLE]])); // succeeds
    assert_eq!(words(&broker, TOKEN), after);
    assert_ne!(after, before);
    assert_eq!(state(&mut broker, SHUTDOWN), PrivilegeState::Absent);
}

#[test]
fn by_hand_a_reset_names_no_privilege_to_put_back() {
    let mut broker = with_a_screen();
    ask(&mut broker, &request(&[RESET]));
    for action in [DISABLE, ENABLE] {
        assert_eq!(refused(&mut broker, &request(&[[0, action]])), Some(Refusal::Field));
    }
}

#[test]
fn what_undoes_a_reset_is_another_request() {
    let mut broker = with_a_screen();
    let before = words(&broker, TOKEN);
    let report = answer(&mut broker, &request(&[RESET]));
    assert_ne!(words(&broker, TOKEN), before);
    let previous = PreviousPrivileges::read(report.fields()).expect("two words");
    assert_eq!([previous.present, previous.enabled], before[..2]);
    let entries: Vec<_> = (2..=36)
        .filter_map(|privilege| match previous.state(privilege) {
            PrivilegeState::Absent => None,
            PrivilegeState::Disabled => Some([privilege.into(), DISABLE]),
            PrivilegeState::Enabled => Some([privilege.into(), ENABLE]),
        })
        .collect();
    ask(&mut broker, &request(&entries));
    assert_eq!(words(&broker, TOKEN), before);
}
