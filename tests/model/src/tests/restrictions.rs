//! The restricting SIDs of request 10: of an unrestricted source, and that a second restriction never
//! widens.

use super::{ask, handle, open, start, status, token_of, token_of_mut};
use crate::{Model, HANDLES};

/// Request 10 that does nothing but restrict.
fn restrict(source: u64, write_restricted: u64, sids: &[u64]) -> Vec<u64> {
    [&[10, source, write_restricted, 0, 0, sids.len() as u64], sids].concat()
}

/// A restricted token, marked or not.
fn restricted(write_restricted: bool, sids: &[u64]) -> (Model, u64) {
    let mut model = start();
    let own = open(&mut model, 0, 2);
    let made = handle(&mut model, 0, &restrict(own, write_restricted.into(), sids));
    (model, made)
}

/// The restricting SIDs of the copy.
fn list_of_copy(model: &mut Model, request: &[u64]) -> Vec<u32> {
    let copy = handle(model, 0, request);
    token_of(model, copy).restricting.clone()
}

#[test]
fn an_unrestricted_source_takes_sixteen_sids_and_no_more() {
    let (mut model, marked) = restricted(true, &[]);
    let own = open(&mut model, 0, 2);
    let sids: Vec<u64> = (100..117).collect();
    let repeated = [105; 17];
    for source in [own, marked] {
        for (mark, sids) in [(0, &sids), (1, &sids), (0, &repeated.to_vec())] {
            assert_eq!(ask(&mut model, 0, &restrict(source, mark, sids)), [8]);
            let list = list_of_copy(&mut model, &restrict(source, mark, &sids[1..]));
            assert_eq!(list, sids[1..].iter().map(|&sid| sid as u32).collect::<Vec<_>>());
        }
        assert_eq!(list_of_copy(&mut model, &restrict(source, 1, &[])), []);
    }
    let bad_too = [&[10, own, 0, 1, 0, 17], &sids[..]].concat();
    assert_eq!(ask(&mut model, 0, &bad_too), [5]);
    assert_eq!(ask(&mut model, 0, &restrict(own, 0, &sids)[..22]), [1]);
}

#[test]
fn a_second_restriction_keeps_what_is_also_given() {
    let (mut model, source) = restricted(false, &[103, 109, 103, 105]);
    let cases: [(&[u64], &[u32]); 8] = [
        (&[], &[103, 109, 103, 105]),
        (&[105], &[105]),
        (&[103], &[103, 103]),
        (&[103, 103, 103, 103, 103], &[103, 103]),
        (&[105, 109], &[109, 105]),
        (&[107, 105, 108, 103], &[103, 103, 105]),
        (&[105, 103, 109], &[103, 109, 103, 105]),
        (&[105, 103, 109, 105, 100], &[103, 109, 103, 105]),
    ];
    for (given, expected) in cases {
        assert_eq!(list_of_copy(&mut model, &restrict(source, 0, given)), expected, "{given:?}");
    }
}

#[test]
fn a_second_restriction_that_leaves_none_is_refused() {
    let (mut model, source) = restricted(false, &[103, 109, 103, 105]);
    let before = model.clone();
    for given in [&[104][..], &[104, 104], &[7, 199, 18], &[106; 100]] {
        assert_eq!(ask(&mut model, 0, &restrict(source, 0, given)), [5], "{given:?}");
    }
    assert_eq!(model, before);
}

#[test]
fn a_third_restriction_keeps_of_the_second_only() {
    let (mut model, first) = restricted(false, &[103, 109, 105]);
    let second = handle(&mut model, 0, &restrict(first, 0, &[109, 105]));
    assert_eq!(list_of_copy(&mut model, &restrict(second, 0, &[103, 105])), [105]);
    assert_eq!(list_of_copy(&mut model, &restrict(second, 0, &[])), [109, 105]);
    assert_eq!(ask(&mut model, 0, &restrict(second, 0, &[103])), [5]);
    let copy = handle(&mut model, 0, &[9, second, 2, 1, 2]);
    assert_eq!(ask(&mut model, 0, &restrict(copy, 0, &[103])), [5]);
    assert_eq!(list_of_copy(&mut model, &restrict(copy, 0, &[109])), [109]);
}

#[test]
fn a_restricted_source_may_be_given_any_number() {
    let sixteen: Vec<u64> = (100..116).collect();
    let (mut model, source) = restricted(false, &sixteen);
    for count in [16, 17, 40, 300] {
        let given: Vec<u64> = (110..199).cycle().take(count).collect();
        let list = list_of_copy(&mut model, &restrict(source, 0, &given));
        assert_eq!(list, [110, 111, 112, 113, 114, 115], "{count}");
        let others: Vec<u64> = (120..199).cycle().take(count).collect();
        assert_eq!(ask(&mut model, 0, &restrict(source, 0, &others)), [5], "{count}");
    }
}

#[test]
fn write_restricted_is_asked_of_a_marked_or_unrestricted_source() {
    for (marked, sids, expected) in
        [(false, &[103][..], 5), (true, &[103], 0), (false, &[], 0), (true, &[], 0)]
    {
        let (mut model, source) = restricted(marked, sids);
        for given in [&[][..], &[103], &[103; 16]] {
            assert_eq!(status(&mut model, 0, &restrict(source, 1, given)), expected);
            assert_eq!(status(&mut model, 0, &restrict(source, 0, given)), 0);
        }
    }
    let (mut model, source) = restricted(false, &[103]);
    token_of_mut(&mut model, source).user_deny_only = true;
    assert_eq!(ask(&mut model, 0, &restrict(source, 1, &[103])), [5]);
    assert_eq!(ask(&mut model, 0, &restrict(source, 2, &[103])), [5]);
}

#[test]
fn what_a_second_restriction_is_refused_for_comes_before_a_full_table() {
    let (mut model, source) = restricted(false, &[103]);
    for _ in 2..HANDLES {
        open(&mut model, 0, 1);
    }
    for (mark, given, expected) in [
        (0, &[104][..], 5),
        (1, &[], 5),
        (1, &[103], 5),
        (0, &[104; 17], 5),
        (0, &[103], 8),
        (0, &[], 8),
    ] {
        assert_eq!(ask(&mut model, 0, &restrict(source, mark, given)), [expected]);
    }
}
