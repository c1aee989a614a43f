//! The layout of the lent memory.

use super::{ask, handle, open, send, start};
use crate::layout::{
    control_word, station_word, token_word, DACL_ROW, HANDLE_BYTES, PENDING_ROW, STATION_ROW,
    TOKEN_ROW,
};
use crate::{HandleRecord, Memory, Model, ALL_PRIVILEGES, HANDLES, MIN_BUFFER, PARTS, STATIONS};

/// The bytes of each part, as docs/MEMORY.md's first table has them.
const SIZES: [usize; PARTS.len()] = [12_928, 4_096, 512, 20_920, 16_400];

#[test]
fn sizes() {
    let sizes = Model::start().memory().bytes().map(|part| part.len());
    assert_eq!(sizes, SIZES);
    assert_eq!(sizes.iter().sum::<usize>(), 54_856);
}

#[test]
fn the_start_in_memory() {
    let memory = Model::start().memory();
    let all = ALL_PRIVILEGES;
    let row = [1, 1, 999, 18, 1, 0, 1, 0, 0, 0, 0, 0, 16384, all, all, all, 0, 0, 0, 0, 1];
    let (fields, rest) = memory.tokens.split_at(token_word::GROUPS);
    assert_eq!(fields, row);
    assert!(rest.iter().all(|&word| word == 0));
    assert_eq!(memory.handles, [HandleRecord::default(); HANDLES]);
    let stations = [1, 0, 0, 0, 0].repeat(STATIONS);
    let before = [vec![2, 1], stations, vec![0; 12]].concat();
    let (before_sids, sids) = memory.control.split_at(before.len());
    assert_eq!(before_sids, before);
    assert_eq!(sids, Model::start().sids.words());
    assert!(memory.dacls.iter().chain(&memory.pending).all(|&byte| byte == 0));
    assert_eq!(memory.model(), Some(Model::start()));
}

/// A model with something in each part.
fn busy() -> Model {
    let mut model = start();
    let request = [3, 50, 9, 4096, 12, 4, 2, 60, 2, 61, 0xC000_000A];
    let made = handle(&mut model, 2, &request);
    let request = [10, made, 1, 8, 1, 3, 0, 70, 71, 72];
    let copy = handle(&mut model, 2, &request) as u8;
    assert_eq!(send(&mut model, 2, &[8, copy, 2, 1, 1, 3, 7, 8, 9]), [0]);
    assert_eq!(send(&mut model, 2, &[7, copy, 99]), [0]);
    open(&mut model, 5, 0x1EF);
    let client = handle(&mut model, 2, &[9, copy.into(), 2, 3, 0x1EF]);
    assert_eq!(ask(&mut model, 2, &[12, client]), [0, 3]);
    model.feed(3, &[5, 1, 2], MIN_BUFFER);
    model.feed(4, &[0x80, 0x80], MIN_BUFFER);
    model
}

/// Where a field of a token slot stands.
fn token(slot: usize, word: usize) -> usize {
    slot * TOKEN_ROW + word
}

/// Where a field of a station stands.
fn station(station: usize, word: usize) -> usize {
    control_word::STATIONS + station * STATION_ROW + word
}

#[test]
fn every_field_has_its_word() {
    let memory = busy().memory();
    let row = &memory.tokens[token(2, 0)..];
    let head = [3, 5, 9, 50, 1, 0, 1, 1, 1, 2, 1, 99, 4096, 4, 4, 4, 0, 2, 3, 3, 2];
    assert_eq!(row[..token_word::GROUPS], head);
    assert_eq!(row[token_word::GROUPS..][..3], [60 | 0x12 << 32, 61 | 0xC000_000E << 32, 0]);
    assert_eq!(row[token_word::RESTRICTING..][..4], [70, 71, 72, 0]);
    assert_eq!(memory.dacls[2 * DACL_ROW..][..4], [7, 8, 9, 0]);
    let last = HandleRecord { station: 5, mask: 0x1EF, number: 3, token: 1 };
    assert_eq!(memory.handles[2], last);
    assert_eq!(memory.control[..control_word::STATIONS], [5, 5]);
    let rows = [[1, 0, 0, 4, 3], [1, 3, 0, 0, 0], [1, 0, 1, 0, 0]];
    assert_eq!(memory.control[station(2, 0)..station(5, 0)], rows.concat());
    assert_eq!(memory.pending[3 * PENDING_ROW..][..4], [5, 1, 2, 0]);
}

#[test]
fn every_byte_of_a_record_is_of_a_field() {
    let bytes: [u8; HANDLE_BYTES] = std::array::from_fn(|at| at as u8 + 1);
    let record = HandleRecord::from_bytes(&bytes);
    assert_eq!(record.bytes(), bytes);
    assert_eq!(record.station, u16::from_ne_bytes([1, 2]));
    assert_eq!(record.mask, u16::from_ne_bytes([3, 4]));
    assert_eq!(record.number, u32::from_ne_bytes([5, 6, 7, 8]));
    assert_eq!(record.token, u64::from_ne_bytes([9, 10, 11, 12, 13, 14, 15, 16]));
}

#[test]
fn parts_are_the_bytes_of_their_elements() {
    let memory = busy().memory();
    let [tokens, dacls, handles, control, pending] = memory.bytes();
    let word =
        |bytes: &[u8], at: usize| u64::from_ne_bytes(*bytes.as_chunks().0[at..].first().unwrap());
    assert!((0..memory.tokens.len()).all(|at| word(&tokens, at) == memory.tokens[at]));
    assert!((0..memory.control.len()).all(|at| word(&control, at) == memory.control[at]));
    assert_eq!((dacls, pending), (memory.dacls, memory.pending));
    let records = handles.as_chunks().0.iter().map(HandleRecord::from_bytes);
    assert!(records.eq(memory.handles));
}

#[test]
fn memory_is_read_back() {
    let model = busy();
    assert_eq!(model.memory().model(), Some(model.clone()));
    assert_eq!(model.memory().broken_rules(), [""; 0]);
}

/// Whether the memory stays valid after the change.
fn valid_after(change: impl FnOnce(&mut Memory)) -> bool {
    let mut memory = busy().memory();
    change(&mut memory);
    let model = memory.model();
    if let Some(model) = &model {
        assert_eq!(model.memory(), memory);
    }
    model.is_some()
}

/// Whether it stays valid with this client and level in a station's row.
fn valid_with_client(at: usize, token: u64, level: u64) -> bool {
    valid_after(|memory| {
        memory.control[station(at, station_word::CLIENT)] = token;
        memory.control[station(at, station_word::CLIENT_LEVEL)] = level;
    })
}

/// Whether it stays valid with this value in a token's field.
fn valid_with(slot: usize, word: usize, value: u64) -> bool {
    valid_after(|memory| memory.tokens[token(slot, word)] = value)
}

#[test]
fn what_valid_memory_does_not_ask() {
    assert!(valid_with(0, token_word::MODIFIED, u64::MAX), "any modified number");
    assert!(valid_with(0, token_word::ELEVATION, 3), "any elevation");
    for root in 0..=3 {
        assert!(valid_with(2, token_word::ROOT, root), "its own number as root, or any below");
    }
    assert!(valid_with(0, token_word::USER_DENY_ONLY, 1), "one mark of the two");
    assert!(valid_with(0, token_word::USED, ALL_PRIVILEGES), "any used");
    assert!(valid_with(1, token_word::GROUPS, 60 | 1 << 32), "no value 2");
    assert!(valid_with(2, token_word::TYPE, 2), "an impersonation token of level 0");
    assert!(
        valid_after(|memory| memory.control[control_word::NEXT_TOKEN] = u64::MAX),
        "the last next number"
    );
    assert!(
        valid_after(|memory| memory.control[control_word::NEXT_HANDLE] = u32::MAX.into()),
        "the same"
    );
}

#[test]
fn what_it_does_ask() {
    assert!(!valid_with(2, token_word::LEVEL, 1), "a primary token's level");
    assert!(!valid_with(1, token_word::TYPE, 3), "type");
    assert!(!valid_with(2, token_word::TYPE, 0), "type");
    assert!(!valid_with(0, token_word::TYPE, 2), "a station's token");
    for root in [4, 5, 1 << 32, 3 + (1 << 32), 1 << 63, u64::MAX] {
        assert!(!valid_with(2, token_word::ROOT, root), "a root above the token's number");
    }
    assert!(!valid_with(2, token_word::OWNER, 1), "owner without the attribute");
    assert!(!valid_with(2, token_word::GROUPS, 60 | 0x16 << 32), "deny-only and enabled");
    let count = station(4, station_word::PENDING_COUNT);
    assert!(!valid_after(|memory| memory.control[count] = 1), "broken with pending");
    assert!(
        !valid_after(|memory| memory.control[control_word::NEXT_HANDLE] = 1 << 32),
        "next handle number"
    );
    assert!(!valid_after(|memory| memory.tokens.push(0)), "size");
}

#[test]
fn a_client_is_an_impersonation_token_at_its_own_level_at_most() {
    for at in [0, 2, 7] {
        for level in 0..=3 {
            assert!(valid_with_client(at, 4, level), "at any level up to its own");
        }
        for level in [4, 5, 1 << 32, (1 << 32) + 3, u64::MAX] {
            assert!(!valid_with_client(at, 4, level), "above");
        }
        assert!(valid_with_client(at, 0, 0), "none");
        for level in [1, 3, 4, u64::MAX] {
            assert!(!valid_with_client(at, 0, level), "none at a level");
        }
        for token in 1..=3 {
            assert!(!valid_with_client(at, token, 0), "a primary token");
        }
        for token in [5, 6, 4 + (1 << 32), u64::MAX] {
            assert!(!valid_with_client(at, token, 0), "a token that is not live");
        }
    }
    assert!(!valid_with(3, token_word::LEVEL, 2), "its own level is below that in force");
    assert!(!valid_after(|memory| memory.tokens[token(3, token_word::TYPE)] = 1), "primary now");
}

#[test]
fn a_client_alone_keeps_a_token_referred_to() {
    let without_handle = |memory: &mut Memory| memory.handles[3] = HandleRecord::default();
    assert!(valid_after(without_handle));
    assert!(!valid_after(|memory| {
        without_handle(memory);
        memory.control[station(2, station_word::CLIENT)] = 0;
        memory.control[station(2, station_word::CLIENT_LEVEL)] = 0;
    }));
}

#[test]
fn any_byte_of_a_free_handle_slot_is_zero() {
    for at in 0..HANDLE_BYTES {
        let mut bytes = [0; HANDLE_BYTES];
        bytes[at] = 1;
        let record = HandleRecord::from_bytes(&bytes);
        assert!(!valid_after(|memory| memory.handles[4] = record), "byte {at}");
    }
}
