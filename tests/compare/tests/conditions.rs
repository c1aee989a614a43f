//! Request 18 through the static library, against the model.

use compare::{conditions, Lent};
use gen::{one_seed, Counts};

#[test]
fn known_conditions() {
    conditions::compare_known::<Lent>();
}

#[test]
fn every_short_condition() {
    let answered = conditions::compare_short::<Lent>();
    println!("{answered} short conditions were answered");
    assert!(answered > 100, "too few to show anything: {answered}");
}

#[test]
fn conditions_of_every_length() {
    // Up to seven around a leaf, and flat lists of up to 1,021.
    assert_eq!(conditions::compare_long::<Lent>(), 8 + 8 + 1022);
}

#[test]
fn every_case_of_conditions() {
    let mut counts = Counts::default();
    conditions::compare_random::<Lent>(0..2000, &mut counts);
    println!("conditions:\n{counts}");
    if one_seed().is_none() {
        counts.check_conditions(10);
    }
}
