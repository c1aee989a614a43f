//! SIDs themselves, as requests 14 and 15 have them; all else has their numbers.

use core::fmt;
use core::str::FromStr;

use super::error::ReadError;
use super::list::{sealed::Fields, Item};
use super::reader::Reader;
use crate::limits::{MAX_SID, MAX_SUB_AUTHORITIES};
use crate::number;

/// The only revision.
const REVISION: u8 = 1;
/// Bytes of the authority, high byte first.
const AUTHORITY_BYTES: usize = 6;
/// Bytes before the sub-authorities: the revision, their count and the authority.
const HEAD: usize = 2 + AUTHORITY_BYTES;
/// Bytes of a sub-authority, low byte first.
const SUB_AUTHORITY_BYTES: usize = 4;
/// The largest authority.
const MAX_AUTHORITY: u64 = (1 << (8 * AUTHORITY_BYTES)) - 1;
/// What is expected where there are too many.
const FEWER: &str = "at most 15 sub-authorities";

/// What a text begins with, in either case.
const TEXT_BEGIN: &str = "S-1-";
/// Digits of an authority in hexadecimal, and the most digits of a number in decimal.
const HEX_DIGITS: usize = 2 * AUTHORITY_BYTES;
const DECIMAL_DIGITS: usize = 10;

/// A SID, by the layout of MS-DTYP: an authority and at most
/// [`MAX_SUB_AUTHORITIES`] sub-authorities.
///
/// Its text is as MS-DTYP has it, too: an authority below 2^32 is decimal, else it is `0x` and twelve
/// hexadecimal digits.
///
/// ```
/// use obriska::codec::Sid;
///
/// let operators: Sid = "S-1-5-32-544".parse()?;
/// assert_eq!(operators, Sid::new(5, &[32, 544]).expect("it is a SID"));
/// assert_eq!(operators.packed(), [1, 2, 0, 0, 0, 0, 0, 5, 32, 0, 0, 0, 0x20, 2, 0, 0]);
/// assert_eq!(Sid::read(operators.packed()), Ok(operators));
/// assert_eq!(Sid::SYSTEM.to_string(), "S-1-5-18");
/// # Ok::<(), obriska::codec::ReadError>(())
/// ```
#[derive(Clone, Copy, PartialEq, Eq, Hash)]
pub struct Sid {
    /// The packed bytes, then zeros.
    packed: [u8; MAX_SID],
}

impl Sid {
    /// Anonymous, S-1-5-7, which has number 7 from the start.
    pub const ANONYMOUS: Self = Sid::well_known(7);
    /// SYSTEM, S-1-5-18, which has number 18 from the start.
    pub const SYSTEM: Self = Sid::well_known(18);

    const fn well_known(sub_authority: u8) -> Self {
        let mut packed = [0; MAX_SID];
        packed[0] = REVISION;
        packed[1] = 1;
        packed[HEAD - 1] = 5;
        packed[HEAD] = sub_authority;
        Sid { packed }
    }

    /// The SID of an authority, such as 5, and its sub-authorities; `None` where the authority has
    /// more than 48 bits, or where there are too many sub-authorities.
    pub fn new(authority: u64, sub_authorities: &[u32]) -> Option<Self> {
        if authority > MAX_AUTHORITY || sub_authorities.len() > MAX_SUB_AUTHORITIES {
            return None;
        }
        let mut packed = [0; MAX_SID];
        packed[..8].copy_from_slice(&authority.to_be_bytes());
        packed[0] = REVISION;
        packed[1] = sub_authorities.len() as u8;
        let places = packed[HEAD..].chunks_exact_mut(SUB_AUTHORITY_BYTES);
        for (place, sub_authority) in places.zip(sub_authorities) {
            place.copy_from_slice(&sub_authority.to_le_bytes());
        }
        Some(Sid { packed })
    }

    /// The SID that these packed bytes are, all of them.
    ///
    /// # Errors
    ///
    /// Where they are none, or more than one.
    pub fn read(packed: &[u8]) -> Result<Self, ReadError> {
        let mut reader = Reader::new(packed);
        let sid = Self::take(&mut reader)?;
        reader.finish()?;
        Ok(sid)
    }

    /// The packed SID that comes next.
    pub(super) fn take(reader: &mut Reader) -> Result<Self, ReadError> {
        let place = reader.place();
        let head = reader.plain(HEAD, "a packed SID")?;
        if head[0] != REVISION {
            return Err(ReadError { place, expected: "revision 1 of a SID" });
        }
        let count = usize::from(head[1]);
        if count > MAX_SUB_AUTHORITIES {
            return Err(ReadError { place: place + 1, expected: FEWER });
        }
        let rest = reader.plain(count * SUB_AUTHORITY_BYTES, "the sub-authorities of a SID")?;
        let mut packed = [0; MAX_SID];
        packed[..HEAD].copy_from_slice(head);
        packed[HEAD..][..rest.len()].copy_from_slice(rest);
        Ok(Sid { packed })
    }

    /// Its packed bytes, 8 to [`MAX_SID`]: revision, count, authority, sub-authorities.
    pub fn packed(&self) -> &[u8] {
        &self.packed[..HEAD + usize::from(self.packed[1]) * SUB_AUTHORITY_BYTES]
    }

    /// Its authority, a number of 48 bits.
    pub fn authority(&self) -> u64 {
        self.packed[2..HEAD].iter().fold(0, |authority, &byte| authority << 8 | u64::from(byte))
    }

    /// Its sub-authorities, in their order.
    pub fn sub_authorities(&self) -> impl ExactSizeIterator<Item = u32> + '_ {
        let places = self.packed()[HEAD..].chunks_exact(SUB_AUTHORITY_BYTES);
        places.map(|place| u32::from_le_bytes([place[0], place[1], place[2], place[3]]))
    }
}

impl fmt::Display for Sid {
    fn fmt(&self, f: &mut fmt::Formatter<'_>) -> fmt::Result {
        match self.authority() {
            authority if authority <= u32::MAX.into() => write!(f, "S-1-{authority}")?,
            authority => write!(f, "S-1-0x{authority:0HEX_DIGITS$X}")?,
        }
        self.sub_authorities().try_for_each(|sub_authority| write!(f, "-{sub_authority}"))
    }
}

impl fmt::Debug for Sid {
    fn fmt(&self, f: &mut fmt::Formatter<'_>) -> fmt::Result {
        write!(f, "Sid({self})")
    }
}

impl FromStr for Sid {
    type Err = ReadError;

    /// The SID that a text such as S-1-5-18 is. An authority may be hexadecimal whatever it is; no
    /// number has more than ten decimal digits.
    fn from_str(text: &str) -> Result<Self, ReadError> {
        let mut parts = parts(text).ok_or(ReadError { place: 0, expected: "S-1-" })?;
        let (place, first) = parts.next().unwrap_or_default();
        let authority = authority(first).ok_or(ReadError { place, expected: "an authority" })?;
        let mut sub_authorities = [0; MAX_SUB_AUTHORITIES];
        let mut count = 0;
        for (place, part) in parts {
            let next =
                sub_authorities.get_mut(count).ok_or(ReadError { place, expected: FEWER })?;
            *next = decimal(part).ok_or(ReadError { place, expected: "a sub-authority" })?;
            count += 1;
        }
        Ok(Sid::new(authority, &sub_authorities[..count]).expect("its parts are in their ranges"))
    }
}

/// The authority and the sub-authorities of a text, each with its place.
fn parts(text: &str) -> Option<impl Iterator<Item = (usize, &str)>> {
    let begin = text.get(..TEXT_BEGIN.len())?;
    let mut place = begin.len();
    let parts = text[place..].split('-').map(move |part| {
        let at = place;
        place += part.len() + 1;
        (at, part)
    });
    begin.eq_ignore_ascii_case(TEXT_BEGIN).then_some(parts)
}

/// A number of 32 bits in decimal.
fn decimal(text: &str) -> Option<u32> {
    let is_decimal = text.bytes().all(|digit| digit.is_ascii_digit());
    let fits = text.len() <= DECIMAL_DIGITS;
    (is_decimal && fits).then(|| text.parse().ok()).flatten()
}

/// An authority as text has it.
fn authority(text: &str) -> Option<u64> {
    let Some(digits) = text.strip_prefix("0x").or_else(|| text.strip_prefix("0X")) else {
        return decimal(text).map(u64::from);
    };
    let is_hex = digits.bytes().all(|digit| digit.is_ascii_hexdigit());
    (is_hex && digits.len() == HEX_DIGITS).then(|| u64::from_str_radix(digits, 16).ok()).flatten()
}

impl Item for Sid {}

impl Fields for Sid {
    fn read(reader: &mut Reader, _: &'static str) -> Result<Self, ReadError> {
        Sid::take(reader)
    }

    fn write(self, out: &mut impl Extend<u8>) {
        out.extend(self.packed().iter().copied());
    }
}

/// A group of request 14: a [`Group`](crate::Group) with the SID for its number.
#[derive(Clone, Copy, Debug, PartialEq, Eq, Hash)]
#[non_exhaustive]
pub struct SidGroup {
    /// Who it is.
    pub sid: Sid,
    /// See [`names::GROUP_ATTRIBUTES`](crate::names::GROUP_ATTRIBUTES).
    pub attributes: u32,
}

impl SidGroup {
    /// The group of a SID, with these attributes.
    pub const fn new(sid: Sid, attributes: u32) -> Self {
        SidGroup { sid, attributes }
    }
}

impl Item for SidGroup {}

impl Fields for SidGroup {
    fn read(reader: &mut Reader, expected: &'static str) -> Result<Self, ReadError> {
        Ok(SidGroup { sid: Sid::take(reader)?, attributes: reader.u32(expected)? })
    }

    fn write(self, out: &mut impl Extend<u8>) {
        Fields::write(self.sid, out);
        number::write(self.attributes.into(), out);
    }
}

#[cfg(test)]
mod tests {
    use super::*;

    /// SIDs with their texts, at the edges of the authority and of the count.
    fn written() -> Vec<(Sid, &'static str)> {
        let sid = |authority, sub_authorities| Sid::new(authority, sub_authorities).expect("a SID");
        vec![
            (Sid::ANONYMOUS, "S-1-5-7"),
            (Sid::SYSTEM, "S-1-5-18"),
            (sid(0, &[]), "S-1-0"),
            (sid(0, &[0]), "S-1-0-0"),
            (sid(5, &[32, 544]), "S-1-5-32-544"),
            (sid(u32::MAX.into(), &[u32::MAX]), "S-1-4294967295-4294967295"),
            (sid(1 << 32, &[1]), "S-1-0x000100000000-1"),
            (sid(MAX_AUTHORITY, &[]), "S-1-0xFFFFFFFFFFFF"),
            (sid(5, &[9; MAX_SUB_AUTHORITIES]), "S-1-5-9-9-9-9-9-9-9-9-9-9-9-9-9-9-9"),
        ]
    }

    #[test]
    fn a_sid_is_read_from_its_bytes_and_from_its_text() {
        for (sid, text) in written() {
            assert_eq!(sid.to_string(), text);
            assert_eq!(text.parse(), Ok(sid));
            assert_eq!(Sid::read(sid.packed()), Ok(sid));
            assert_eq!(sid.packed().len(), 8 + 4 * sid.sub_authorities().len());
            assert_eq!(
                Sid::new(sid.authority(), &sid.sub_authorities().collect::<Vec<_>>()),
                Some(sid)
            );
        }
        let longest = Sid::new(MAX_AUTHORITY, &[u32::MAX; MAX_SUB_AUTHORITIES]).expect("a SID");
        assert_eq!((longest.packed().len(), longest.to_string().len()), (MAX_SID, 183));
        assert_eq!(longest.to_string().parse(), Ok(longest));
    }

    #[test]
    fn packed_bytes_are_laid_out_as_ms_dtyp_says() {
        let sid = Sid::new(0x0102_0304_0506, &[0x0708_090A, 0x80]).expect("a SID");
        let packed = [1, 2, 1, 2, 3, 4, 5, 6, 10, 9, 8, 7, 0x80, 0, 0, 0];
        assert_eq!(sid.packed(), packed);
        assert_eq!(sid.authority(), 0x0102_0304_0506);
        assert!(sid.sub_authorities().eq([0x0708_090A, 0x80]));
    }

    #[test]
    fn what_is_too_large_is_no_sid() {
        assert_eq!(Sid::new(MAX_AUTHORITY + 1, &[]), None);
        assert_eq!(Sid::new(5, &[0; MAX_SUB_AUTHORITIES + 1]), None);
    }

    #[test]
    fn other_forms_of_a_text_are_read_too() {
        for text in ["s-1-5-18", "S-1-0x000000000005-18", "S-1-0X000000000005-0018", "S-1-05-18"] {
            assert_eq!(text.parse(), Ok(Sid::SYSTEM), "{text}");
        }
        let large: Sid = "S-1-0xabcdefABCDEF".parse().expect("small digits");
        assert_eq!(large.authority(), 0xABCD_EFAB_CDEF);
    }

    #[test]
    fn what_is_no_text_of_a_sid_is_told_with_its_place() {
        let sixteen = ["S-1-5", &"-9".repeat(MAX_SUB_AUTHORITIES + 1)].concat();
        let texts = [
            ("", 0, TEXT_BEGIN),
            ("S", 0, TEXT_BEGIN),
            ("S-1", 0, TEXT_BEGIN),
            ("S-2-5-18", 0, TEXT_BEGIN),
            ("S-1\u{e4}", 0, TEXT_BEGIN),
            ("S-1-", 4, "an authority"),
            ("S-1--18", 4, "an authority"),
            ("S-1-x", 4, "an authority"),
            ("S-1-+5-18", 4, "an authority"),
            ("S-1-4294967296", 4, "an authority"), // hexadecimal from here on
            ("S-1-00000000005", 4, "an authority"), // eleven digits
            ("S-1-0x5", 4, "an authority"),
            ("S-1-0x0000000000005", 4, "an authority"),
            ("S-1-0x00000000000g", 4, "an authority"),
            ("S-1-5-", 6, "a sub-authority"),
            ("S-1-5-18-", 9, "a sub-authority"),
            ("S-1-5-18 ", 6, "a sub-authority"),
            ("S-1-5-0x12", 6, "a sub-authority"),
            ("S-1-5-18-4294967296", 9, "a sub-authority"),
            (&sixteen, 36, FEWER),
        ];
        for (text, place, expected) in texts {
            assert_eq!(text.parse::<Sid>(), Err(ReadError { place, expected }), "{text}");
        }
    }

    #[test]
    fn what_is_no_packed_sid_is_told_with_its_place() {
        let place = |packed: &[u8]| Sid::read(packed).expect_err("it is none").place;
        let packed = Sid::SYSTEM.packed();
        for length in 0..packed.len() {
            assert_eq!(place(&packed[..length]), length);
        }
        assert_eq!(place(&[packed, &[0]].concat()), packed.len());
        for revision in [0, 2, 0xFF] {
            assert_eq!(place(&[&[revision], &packed[1..]].concat()), 0);
        }
        for count in [16, 17, 0xFF] {
            assert_eq!(place(&[&[1, count], &[0; 1024][..]].concat()), 1);
        }
    }
}
