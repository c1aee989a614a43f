//! Number forms at each width.

use crate::{write_number, Reader};

fn written(number: u64) -> Vec<u8> {
    let mut bytes = Vec::new();
    write_number(number, &mut bytes);
    bytes
}

#[test]
fn known_forms() {
    assert_eq!(written(0), [0]);
    assert_eq!(written(127), [0x7F]);
    assert_eq!(written(128), [0x80, 0x01]);
    assert_eq!(written(2048), [0x80, 0x10]);
    assert_eq!(written(0xFFFF), [0xFF, 0xFF, 0x03]);
    assert_eq!(written(0xFFFF_FFFF), [0xFF, 0xFF, 0xFF, 0xFF, 0x0F]);
    assert_eq!(written(u64::MAX), [[0xFF; 9].as_slice(), &[1]].concat());
}

#[test]
fn every_length_is_read_back() {
    for bit in 0..64 {
        for number in [(1u64 << bit) - 1, 1 << bit, (1 << bit) | 1, u64::MAX >> bit] {
            let bytes = written(number);
            let mut reader = Reader::new(&bytes);
            assert_eq!(reader.u64(), Some(number));
            assert!(reader.at_end());
            assert_eq!(Reader::new(&bytes).u32(), u32::try_from(number).ok());
            assert_eq!(Reader::new(&bytes).u16(), u16::try_from(number).ok());
        }
    }
}

#[test]
fn a_longer_form_is_refused_at_every_length() {
    for bit in 0..64 {
        let mut bytes = written(1 << bit);
        *bytes.last_mut().unwrap() |= 0x80;
        bytes.push(0);
        assert_eq!(Reader::new(&bytes).u64(), None, "bit {bit}");
        assert_eq!(Reader::new(&bytes).u32(), None);
        assert_eq!(Reader::new(&bytes).u16(), None);
    }
}

#[test]
fn the_width_is_a_limit() {
    assert_eq!(Reader::new(&[0xFF, 0xFF, 0x03]).u16(), Some(0xFFFF));
    assert_eq!(Reader::new(&[0x80, 0x80, 0x04]).u16(), None);
    assert_eq!(Reader::new(&[0xFF, 0xFF, 0xFF, 0xFF, 0x0F]).u32(), Some(u32::MAX));
    assert_eq!(Reader::new(&[0x80, 0x80, 0x80, 0x80, 0x10]).u32(), None);
    let wide = |last| [[0xFF; 9].as_slice(), &[last]].concat();
    assert_eq!(Reader::new(&wide(1)).u64(), Some(u64::MAX));
    assert_eq!(Reader::new(&wide(2)).u64(), None);
    assert_eq!(Reader::new(&wide(0x81)).u64(), None);
    assert_eq!(Reader::new(&[0x80; 12]).u64(), None);
}

#[test]
fn a_cut_number_is_refused() {
    assert_eq!(Reader::new(&[]).u32(), None);
    assert_eq!(Reader::new(&[0x80]).u32(), None);
    assert_eq!(Reader::new(&[0xFF, 0xFF]).u64(), None);
}

#[test]
fn lists_end_with_the_bytes() {
    assert_eq!(Reader::new(&[1, 2, 3]).list(3), Some(vec![1, 2, 3]));
    assert_eq!(Reader::new(&[1, 2, 3]).list(u32::MAX), None);
    assert_eq!(Reader::new(&[1, 2, 3]).pairs(1), Some(vec![(1, 2)]));
    assert_eq!(Reader::new(&[1, 2, 3]).pairs(2), None);
    assert_eq!(Reader::new(&[1, 2, 3]).take(4), None);
}
