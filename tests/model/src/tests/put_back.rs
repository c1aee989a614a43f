//! Putting back what request 5 changed, from its report; and where that is not claimed.

use super::{ask, body, open, start, status};
use crate::{Model, Privileges, ALL_PRIVILEGES};

const RESET: u64 = 0x8000_0000;

/// The start, with a handle of station 0 and one of station 1 on the first token.
fn with_two_handles() -> (Model, u64, u64) {
    let mut model = start();
    let (own, others) = (open(&mut model, 0, 0x20), open(&mut model, 1, 0x20));
    (model, own, others)
}

fn words(model: &Model) -> Privileges {
    model.primary(0).privileges
}

#[test]
fn what_was_enabled_disabled_or_absent_is_put_back() {
    let (mut model, own, others) = with_two_handles();
    assert_eq!(status(&mut model, 0, &[5, own, 2, 4, 4, 5, 0]), 0);
    let before = words(&model);
    let (disabled, enabled) = (1 << 5, 1 << 6);
    let report = body(&[0, disabled | enabled, enabled]);
    assert_eq!(ask(&mut model, 0, &[5, own, 3, 4, 0, 5, 2, 6, 0]), report);
    assert_ne!(words(&model), before);
    let back = [3, 4, 0, 5, 0, 6, 2];
    for (station, handle) in [(0, own), (1, others)] {
        let mut copy = model.clone();
        assert_eq!(status(&mut copy, station, &[&[5, handle][..], &back].concat()), 0);
        assert_eq!(words(&copy), before);
    }
}

#[test]
fn only_with_the_right_and_at_the_handles_station() {
    let (mut model, own, others) = with_two_handles();
    let lacking = open(&mut model, 0, 0x1EF & !0x20);
    assert_eq!(status(&mut model, 0, &[5, own, 1, 7, 0]), 0);
    assert_eq!(status(&mut model, 0, &[5, lacking, 1, 7, 2]), 3);
    assert_eq!(status(&mut model, 0, &[5, others, 1, 7, 2]), 2);
    assert_eq!(status(&mut model, 1, &[5, own, 1, 7, 2]), 2);
}

#[test]
fn what_was_removed_cannot_be_enabled() {
    let (mut model, own, _) = with_two_handles();
    assert_eq!(ask(&mut model, 0, &[5, own, 1, 7, 4]), body(&[0, 1 << 7, 1 << 7]));
    assert_eq!(status(&mut model, 0, &[5, own, 1, 7, 2]), 5);
}

#[test]
fn what_was_disabled_and_removed_stays_absent() {
    let (mut model, own, _) = with_two_handles();
    assert_eq!(status(&mut model, 0, &[5, own, 1, 7, 0]), 0);
    let before = words(&model);
    assert_eq!(ask(&mut model, 0, &[5, own, 1, 7, 4]), body(&[0, 1 << 7, 0]));
    assert_eq!(status(&mut model, 0, &[5, own, 1, 7, 0]), 0);
    let absent = ALL_PRIVILEGES & !(1 << 7);
    assert_eq!(words(&model), Privileges { present: absent, default: absent, ..before });
}

#[test]
fn the_privilege_that_a_reset_names_does_not_exist() {
    let (mut model, own, _) = with_two_handles();
    assert_eq!(status(&mut model, 0, &[5, own, 1, 7, 0]), 0);
    let enabled = ALL_PRIVILEGES & !(1 << 7);
    assert_eq!(ask(&mut model, 0, &[5, own, 1, 0, RESET]), body(&[0, ALL_PRIVILEGES, enabled]));
    // Privilege 0 was not enabled; nor could it be.
    for action in [0, 2] {
        assert_eq!(status(&mut model, 0, &[5, own, 1, 0, action]), 5);
    }
}

#[test]
fn another_success_on_the_token_is_in_the_way() {
    let (mut model, own, others) = with_two_handles();
    let before = words(&model);
    assert_eq!(status(&mut model, 0, &[5, own, 1, 7, 0]), 0);
    // It changes another privilege, which stays as it left it.
    let mut other = model.clone();
    assert_eq!(status(&mut other, 1, &[5, others, 1, 8, 0]), 0);
    assert_eq!(status(&mut other, 0, &[5, own, 1, 7, 2]), 0);
    let enabled = ALL_PRIVILEGES & !(1 << 8);
    assert_eq!(words(&other), Privileges { enabled, ..before });
    // Or it removes the same one.
    assert_eq!(status(&mut model, 1, &[5, others, 1, 7, 4]), 0);
    assert_eq!(status(&mut model, 0, &[5, own, 1, 7, 2]), 5);
}
