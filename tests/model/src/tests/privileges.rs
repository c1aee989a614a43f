//! Privileges, request 5.

use super::{ask, body, open, status};
use crate::{Model, Privileges, ALL_PRIVILEGES};

const RESET: u64 = 0x8000_0000;

fn adjusted(entries: &[u64]) -> (Vec<u8>, Privileges) {
    let mut model = Model::start();
    let own = open(&mut model, 0, 0x20);
    let request = [&[5, own, entries.len() as u64 / 2], entries].concat();
    let answer = ask(&mut model, 0, &request);
    (answer, model.primary(0).privileges)
}

#[test]
fn disable_enable_and_remove() {
    let (answer, privileges) = adjusted(&[4, 0, 5, 2, 6, 4]);
    assert_eq!(answer, body(&[0, 0b111_0000, 0b111_0000]));
    let all = ALL_PRIVILEGES;
    assert_eq!(privileges.present, all & !(1 << 6));
    assert_eq!(privileges.enabled, all & !(1 << 6) & !(1 << 4));
    assert_eq!(privileges.default, all & !(1 << 6));
    assert_eq!(privileges.used, 0);
}

#[test]
fn the_report_is_of_the_named_bits_before() {
    let mut model = Model::start();
    let own = open(&mut model, 0, 0x20);
    assert_eq!(ask(&mut model, 0, &[5, own, 2, 4, 0, 5, 0]), body(&[0, 0x30, 0x30]));
    assert_eq!(ask(&mut model, 0, &[5, own, 3, 4, 2, 5, 0, 6, 2]), body(&[0, 0x70, 0x40]));
    assert_eq!(ask(&mut model, 0, &[5, own, 1, 36, 0]), body(&[0, 1 << 36, 1 << 36]));
}

#[test]
fn the_report_tells_absent_disabled_and_enabled_apart() {
    let mut model = Model::start();
    let own = open(&mut model, 0, 0x20);
    assert_eq!(status(&mut model, 0, &[5, own, 2, 4, 4, 5, 0]), 0);
    let (disabled, enabled) = (1 << 5, 1 << 6);
    let report = body(&[0, disabled | enabled, enabled]);
    assert_eq!(ask(&mut model, 0, &[5, own, 3, 4, 0, 5, 2, 6, 4]), report);
}

#[test]
fn entries_are_checked() {
    let bad: [&[u64]; 12] = [
        &[],
        &[0, 0],
        &[1, 0],
        &[37, 4],
        &[64, 0],
        &[0xFFFF_FFFF, 0],
        &[4, 1],
        &[4, 6],
        &[4, RESET],
        &[0, RESET, 4, 0],
        &[4, 0, 4, 0],
        &[4, 0, 5, 0, 4, 2],
    ];
    for entries in bad {
        let (answer, privileges) = adjusted(entries);
        assert_eq!(answer, [5], "{entries:?}");
        assert_eq!(privileges.enabled, ALL_PRIVILEGES);
    }
}

#[test]
fn absent_ones_may_be_disabled_and_removed_but_not_enabled() {
    let mut model = Model::start();
    let own = open(&mut model, 0, 0x20);
    assert_eq!(status(&mut model, 0, &[5, own, 1, 9, 4]), 0);
    let after = model.primary(0).privileges;
    assert_eq!(ask(&mut model, 0, &[5, own, 1, 9, 2]), [5]);
    assert_eq!(ask(&mut model, 0, &[5, own, 2, 8, 0, 9, 2]), [5]);
    assert_eq!(ask(&mut model, 0, &[5, own, 1, 9, 0]), [0, 0, 0]);
    assert_eq!(ask(&mut model, 0, &[5, own, 1, 9, 4]), [0, 0, 0]);
    assert_eq!(model.primary(0).privileges, after);
    assert_eq!(model.primary(0).modified, 4);
}

#[test]
fn reset_enables_the_defaults_and_reports_both_whole_words() {
    let mut model = Model::start();
    let own = open(&mut model, 0, 0x20);
    assert_eq!(status(&mut model, 0, &[5, own, 3, 4, 0, 5, 4, 6, 0]), 0);
    let present = ALL_PRIVILEGES & !(1 << 5);
    let enabled = ALL_PRIVILEGES & !(0b111 << 4);
    assert_eq!(ask(&mut model, 0, &[5, own, 1, 0, RESET]), body(&[0, present, enabled]));
    let privileges = model.primary(0).privileges;
    assert_eq!((privileges.present, privileges.enabled), (present, present));
    assert_eq!(model.primary(0).modified, 3);
}

#[test]
fn all_35_at_once() {
    let entries: Vec<u64> = (2..=36).flat_map(|privilege| [privilege, 4]).collect();
    let (answer, privileges) = adjusted(&entries);
    assert_eq!(answer, body(&[0, ALL_PRIVILEGES, ALL_PRIVILEGES]));
    assert_eq!(privileges, Privileges::default());
}

#[test]
fn removal_keeps_the_used_bit() {
    let mut model = Model::start();
    let own = open(&mut model, 0, 0x120);
    assert_eq!(status(&mut model, 0, &[7, own, 5]), 0);
    assert_eq!(status(&mut model, 0, &[5, own, 1, 7, 4]), 0);
    assert_eq!(model.primary(0).privileges.used, 1 << 7);
    assert_eq!(status(&mut model, 0, &[7, own, 5]), 4);
}

#[test]
fn modified_goes_round() {
    let mut model = Model::start();
    let own = open(&mut model, 0, 0x1EF);
    let requests: [&[u64]; 4] =
        [&[5, own, 1, 2, 0], &[6, own, 1, 0xFFFF_FFFF, 0], &[7, own, 1], &[8, own, 0, 0, 0, 0]];
    for request in requests {
        model.tokens[0].as_mut().unwrap().modified = u64::MAX;
        assert_eq!(status(&mut model, 0, request), 0);
        assert_eq!(model.primary(0).modified, 0);
        assert_eq!(status(&mut model, 0, request), 0);
        assert_eq!(model.primary(0).modified, 1);
    }
}
