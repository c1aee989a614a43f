//! Packed SIDs, and the table's numbers.

use crate::number::Reader;
use crate::{Sid, SidTable, FIRST_ENTERED, MAX_SID_BYTES, MAX_SUB_AUTHORITIES, SIDS};

/// The SID of these bytes, and how many of them it takes.
fn read(bytes: &[u8]) -> Option<(Sid, usize)> {
    let mut reader = Reader::new(bytes);
    let sid = Sid::read(&mut reader)?;
    let mut rest = 0;
    while reader.take(1).is_some() {
        rest += 1;
    }
    Some((sid, bytes.len() - rest))
}

#[test]
fn system_as_ms_dtyp_packs_it() {
    let packed = [1, 1, 0, 0, 0, 0, 0, 5, 18, 0, 0, 0];
    assert_eq!(Sid::nt(18).packed(), packed);
    assert_eq!(read(&packed), Some((Sid::nt(18), 12)));
}

#[test]
fn authorities_stand_as_they_are_and_sub_authorities_low_byte_first() {
    let sid = Sid::new([1, 2, 3, 4, 5, 6], &[0x0708_090A, 0xFFFF_FFFE]).unwrap();
    let packed = [1, 2, 1, 2, 3, 4, 5, 6, 0x0A, 9, 8, 7, 0xFE, 0xFF, 0xFF, 0xFF];
    assert_eq!(sid.packed(), packed);
    assert_eq!(read(&packed), Some((sid, 16)));
    assert_eq!(sid.authority(), [1, 2, 3, 4, 5, 6]);
    assert_eq!(sid.sub_authorities(), [0x0708_090A, 0xFFFF_FFFE]);
}

#[test]
fn every_length_is_read_back() {
    for count in 0..=MAX_SUB_AUTHORITIES {
        let given: Vec<u32> = (0..count as u32).map(|at| at.wrapping_mul(0x9E37_79B9)).collect();
        let sid = Sid::new([0xFF; 6], &given).unwrap();
        let packed = sid.packed();
        assert_eq!(packed.len(), 8 + 4 * count);
        assert_eq!(read(&packed), Some((sid, packed.len())));
        assert_eq!(read(&[&packed[..], &[7, 7]].concat()), Some((sid, packed.len())));
        for end in 0..packed.len() {
            assert_eq!(read(&packed[..end]), None, "cut short at {end}");
        }
    }
    assert_eq!(Sid::new([0; 6], &[1; 16]), None);
    assert_eq!(MAX_SID_BYTES, 68);
}

#[test]
fn revision_is_1_and_the_count_at_most_15() {
    let bytes = |revision, count| [vec![revision, count], vec![0; 6 + 4 * 255]].concat();
    for revision in 0..=255 {
        assert_eq!(read(&bytes(revision, 1)).is_some(), revision == 1, "{revision}");
    }
    for count in 0..=255 {
        assert_eq!(read(&bytes(1, count)).is_some(), count <= 15, "{count}");
    }
}

#[test]
fn a_zero_sub_authority_more_is_another_sid() {
    let of = |given: &[u32]| Sid::new([0, 0, 0, 0, 0, 5], given).unwrap();
    let all = [of(&[]), of(&[0]), of(&[0, 0]), of(&[18]), of(&[18, 0])];
    for (at, sid) in all.iter().enumerate() {
        assert!(!all[..at].contains(sid), "{sid:?}");
    }
    assert_eq!(of(&[18]), Sid::nt(18));
}

#[test]
fn the_table_at_the_start() {
    let table = SidTable::default();
    assert_eq!(table.numbers(), [7, 18]);
    assert_eq!(table.sid(7), Some(Sid::nt(7)));
    assert_eq!(table.sid(18), Some(Sid::nt(18)));
    for number in [0, 6, 8, 17, 19, 31, 32, u32::MAX] {
        assert!(!table.has(number), "{number}");
    }
}

#[test]
fn numbers_go_up_from_32_and_each_sid_has_one() {
    let mut table = SidTable::default();
    let sids: Vec<Sid> = (1000..).map(Sid::nt).take(SIDS).collect();
    for (&sid, number) in sids.iter().zip(FIRST_ENTERED..) {
        assert_eq!(table.number(sid), None);
        assert_eq!(table.enter(sid), number);
        assert_eq!(table.enter(sid), number);
        assert_eq!((table.number(sid), table.sid(number)), (Some(number), Some(sid)));
        assert_eq!(table.fits(), number <= 285, "254 beside those of the start");
    }
    assert_eq!(table.enter(Sid::nt(18)), 18);
    assert_eq!(table.number(sids[0]), Some(32));
}
