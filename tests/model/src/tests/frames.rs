//! Frames: lengths that are whole, part or broken.

use crate::frame::{progress, Progress};
use crate::{framed, MAX_BODY, MAX_LENGTH_BYTES};

#[test]
fn one_length_byte() {
    assert_eq!(progress(&[]), Progress::Partial);
    assert_eq!(progress(&[0]), Progress::Broken);
    assert_eq!(progress(&[1]), Progress::Partial);
    assert_eq!(progress(&[1, 9]), Progress::Whole(&[9]));
    assert_eq!(progress(&[127]), Progress::Partial);
    let frame = [vec![127], vec![5; 127]].concat();
    assert_eq!(progress(&frame[..127]), Progress::Partial);
    assert_eq!(progress(&frame), Progress::Whole(&[5; 127]));
}

#[test]
fn every_pair_of_length_bytes() {
    for first in 0x80..=0xFFu8 {
        assert_eq!(progress(&[first]), Progress::Partial);
        for second in 0..=0xFFu8 {
            let length = usize::from(first & 0x7F) + 128 * usize::from(second);
            let good = second != 0 && second < 0x80 && length <= MAX_BODY;
            let expected = if good { Progress::Partial } else { Progress::Broken };
            assert_eq!(progress(&[first, second]), expected, "{first:02X} {second:02X}");
        }
    }
}

#[test]
fn the_longest_frame() {
    let frame = framed(&[7; MAX_BODY]);
    assert_eq!(frame.len(), MAX_LENGTH_BYTES + MAX_BODY);
    assert_eq!(progress(&frame[..frame.len() - 1]), Progress::Partial);
    assert_eq!(progress(&frame), Progress::Whole(&[7; MAX_BODY]));
}
