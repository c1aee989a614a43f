//! The program: where it stops and what it passes over.

use crate::program;

const OPEN: [u8; 5] = [0, 3, 2, 1, 0x28];

#[test]
fn answers_come_one_after_the_other() {
    let input = [&OPEN[..], &[0, 9, 5, 5, 1, 1, 7, 0, 2, 1, 8]].concat();
    assert_eq!(program(&input), [2, 0, 1, 5, 0, 0x80, 1, 0x80, 1, 2, 0, 2]);
}

#[test]
fn a_refused_chunk_is_passed_over() {
    assert_eq!(program(&[&[8, 3, 2, 1, 0x28], &OPEN[..]].concat()), [2, 0, 1]);
    assert_eq!(program(&[&[8, 0], &OPEN[..]].concat()), [2, 0, 1]);
}

#[test]
fn an_empty_chunk_changes_nothing() {
    assert_eq!(program(&[0, 0, 0, 1, 2, 1, 0, 0, 0, 0, 2, 1, 8]), [2, 0, 1]);
}

#[test]
fn it_stops_at_a_bad_number() {
    for bad in [&[0x80, 0x00, 0][..], &[0, 0x80, 0x00], &[0xFF, 0xFF, 0xFF, 0xFF, 0x10, 0]] {
        assert_eq!(program(&[&OPEN, bad, &OPEN[..]].concat()), [2, 0, 1], "{bad:?}");
    }
    let largest = [0xFF, 0xFF, 0xFF, 0xFF, 0x0F, 0];
    assert_eq!(program(&[&largest, &OPEN[..]].concat()), [2, 0, 1]);
}

#[test]
fn it_stops_at_length_4097() {
    let of_length = |low| [&[1, low, 0x20][..], &[0; 4097], &OPEN].concat();
    assert_eq!(program(&of_length(0x80)[..3 + 4096]), [1, 10]);
    assert_eq!(program(&of_length(0x81)), []);
}

#[test]
fn a_chunk_cut_short_is_not_fed() {
    for end in 0..OPEN.len() {
        assert_eq!(program(&[&OPEN, &OPEN[..end]].concat()), [2, 0, 1]);
    }
    assert_eq!(program(&[0, 4, 2, 1, 0x28]), []);
}
