//! Numbers as requests and answers have them: seven bits a byte, low bits first, the top bit set
//! on all bytes but the last.

#[cfg(feature = "alloc")]
use alloc::vec::Vec;

/// Bits of a number in each of its bytes.
const BITS: u32 = 7;
/// The bit that says that more bytes follow.
const MORE: u8 = 1 << BITS;
/// The most bytes of a number.
const MAX_BYTES: usize = u64::BITS.div_ceil(BITS) as usize;

/// Appends the number's one form.
///
/// ```
/// let mut bytes = Vec::new();
/// obriska::number::write(0x1EF, &mut bytes);
/// assert_eq!(bytes, [0xEF, 0x03]);
/// ```
pub fn write(number: u64, bytes: &mut impl Extend<u8>) {
    let mut rest = number;
    while rest >= MORE.into() {
        bytes.extend([rest as u8 | MORE]);
        rest >>= BITS;
    }
    bytes.extend([rest as u8]);
}

/// The first number of the bytes, and the bytes after it; `None` where there is none in its
/// shortest form.
///
/// ```
/// assert_eq!(obriska::number::read(&[0xEF, 0x03, 5]), Some((0x1EF, &[5][..])));
/// assert_eq!(obriska::number::read(&[0x80, 0x00]), None); // 0 has a shorter form
/// ```
pub fn read(bytes: &[u8]) -> Option<(u64, &[u8])> {
    let last = bytes.iter().take(MAX_BYTES).position(|&byte| byte < MORE)?;
    let (number, rest) = bytes.split_at(last + 1);
    let is_shortest = last == 0 || number[last] != 0;
    let fits = last + 1 < MAX_BYTES || number[last] == 1;
    let value = number.iter().rev().fold(0, |value, &byte| value << BITS | u64::from(byte & !MORE));
    (is_shortest && fits).then_some((value, rest))
}

/// The numbers that the bytes are; `None` unless they are nothing else.
///
/// ```
/// assert_eq!(obriska::number::read_all(&[1, 0xE7, 7]), Some(vec![1, 999]));
/// ```
#[cfg(feature = "alloc")]
pub fn read_all(mut bytes: &[u8]) -> Option<Vec<u64>> {
    let mut numbers = Vec::new();
    while !bytes.is_empty() {
        let (number, rest) = read(bytes)?;
        numbers.push(number);
        bytes = rest;
    }
    Some(numbers)
}

#[cfg(test)]
mod tests {
    use super::*;

    #[test]
    fn a_number_that_is_written_is_read_back() {
        for shift in 0..64 {
            for number in [1_u64 << shift, (1 << shift) - 1, u64::MAX >> shift] {
                let mut bytes = Vec::new();
                write(number, &mut bytes);
                assert_eq!(read(&bytes), Some((number, &[][..])));
            }
        }
    }

    #[test]
    fn only_the_shortest_form_of_64_bits_is_read() {
        assert_eq!(read(&[]), None);
        assert_eq!(read(&[0x80]), None);
        assert_eq!(read(&[0x80, 0x00]), None);
        let largest = [&[0xFF; 9][..], &[1]].concat();
        assert_eq!(read(&largest), Some((u64::MAX, &[][..])));
        let too_large = [&[0xFF; 9][..], &[2]].concat();
        assert_eq!(read(&too_large), None);
        assert_eq!(read(&[0x80; 11]), None);
    }
}
