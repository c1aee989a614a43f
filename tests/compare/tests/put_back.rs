//! Putting back what was, through the static library and beside it the model: random lists, and worked
//! examples of the claim and its limits, byte by byte.

use compare::lists::Both;
use compare::{put_back, Lent};
use gen::{one_seed, PutBackCounts};
use model::{Privileges, ALL_PRIVILEGES};

/// Tcb's bit.
const TCB: u64 = 1 << model::TCB;

/// A station, its frame and the answer.
type Exchange<'a> = (u32, &'a [u8], &'a [u8]);

/// Handle 1 of station 0 and handle 2 of station 1 on the first token.
const OPENED: [Exchange; 2] = [(0, &[2, 1, 0x28], &[2, 0, 1]), (1, &[2, 1, 0x28], &[2, 0, 2])];
/// Case B: Tcb disabled, and the report that it was enabled.
const DISABLED: Exchange = (0, &[5, 5, 1, 1, 7, 0], &[5, 0, 0x80, 1, 0x80, 1]);

/// From the start: handles are opened, the frames are answered so; the first token's words after.
fn after(exchanges: &[Exchange]) -> Privileges {
    let mut both = Both::<Lent>::start();
    for &(station, frame, answer) in OPENED.iter().chain(exchanges) {
        assert_eq!(both.feed(station, frame).answer, answer, "{frame:02X?}");
    }
    both.model.primary(0).privileges
}

/// The first token's words at the start.
fn whole() -> Privileges {
    Privileges::new(ALL_PRIVILEGES, ALL_PRIVILEGES)
}

#[test]
fn random_lists() {
    let mut counts = PutBackCounts::default();
    put_back::compare::<Lent>(0..500, &mut counts);
    println!("{counts}");
    if one_seed().is_none() {
        counts.check(50);
    }
}

#[test]
fn by_its_own_handle_or_another_stations() {
    let report = [4, 0, 0x80, 1, 0];
    assert_eq!(after(&[DISABLED, (0, &[5, 5, 1, 1, 7, 2], &report)]), whole());
    assert_eq!(after(&[DISABLED, (1, &[5, 5, 2, 1, 7, 2], &report)]), whole());
}

#[test]
fn not_after_a_removal() {
    let absent = ALL_PRIVILEGES & !TCB;
    let removed = Privileges::new(absent, absent);
    let remove = [5, 5, 1, 1, 7, 4];
    let enabled: [Exchange; 2] =
        [(0, &remove, &[5, 0, 0x80, 1, 0x80, 1]), (0, &[5, 5, 1, 1, 7, 2], &[1, 5])];
    assert_eq!(after(&enabled), removed);
    let disabled: [Exchange; 2] =
        [(0, &remove, &[4, 0, 0x80, 1, 0]), (0, &[5, 5, 1, 1, 7, 0], &[3, 0, 0, 0])];
    assert_eq!(after(&[&[DISABLED][..], &disabled].concat()), removed);
}

#[test]
fn not_after_a_reset() {
    let reset = [9, 5, 1, 1, 0, 0x80, 0x80, 0x80, 0x80, 8];
    let words = [0x0D, 0, 0xFC, 0xFF, 0xFF, 0xFF, 0xFF, 3, 0xFC, 0xFE, 0xFF, 0xFF, 0xFF, 3];
    assert_eq!(after(&[DISABLED, (0, &reset, &words), (0, &[5, 5, 1, 1, 0, 0], &[1, 5])]), whole());
}

#[test]
fn not_after_another_success() {
    let other: Exchange = (1, &[5, 5, 2, 1, 8, 0], &[5, 0, 0x80, 2, 0x80, 2]);
    let words = after(&[DISABLED, other, (0, &[5, 5, 1, 1, 7, 2], &[4, 0, 0x80, 1, 0])]);
    assert_eq!(words, Privileges { enabled: ALL_PRIVILEGES & !(1 << 8), ..whole() });
    let removal: Exchange = (1, &[5, 5, 2, 1, 7, 4], &[4, 0, 0x80, 1, 0]);
    let words = after(&[DISABLED, removal, (0, &[5, 5, 1, 1, 7, 2], &[1, 5])]);
    assert_eq!(words, Privileges::new(ALL_PRIVILEGES & !TCB, ALL_PRIVILEGES & !TCB));
}
