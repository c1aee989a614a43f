//! Kept memory: its head, what is said of bytes that are none, and the edition that all files name.

use obriska::{Broker, KeptError, Refusal, KEPT_BYTES, LAYOUT, VERSION};

/// The head, as docs/MEMORY.md has it.
const HEAD: [u8; 32] = [
    0x4F, 0x42, 0x52, 0x49, 0x53, 0x4B, 0x41, 0x00, // OBRISKA
    0x06, 0x00, 0x00, 0x00, // layout 6
    0x80, 0x32, 0x00, 0x00, // 12,928 bytes of tokens
    0x00, 0x10, 0x00, 0x00, // 4,096 of dacls
    0x00, 0x02, 0x00, 0x00, // 512 of handles
    0xB8, 0x51, 0x00, 0x00, // 20,920 of control
    0x10, 0x40, 0x00, 0x00, // 16,400 of pending
];

/// Bytes of the magic, and of it with the layout.
const MAGIC: usize = 8;
const SIZES: usize = MAGIC + 4;

const HEADER: &str = include_str!("../../../include/obriska.h");
const PAGE: &str = include_str!("../../../docs/MEMORY.md");

/// What is wrong with the bytes.
fn error(bytes: &[u8]) -> KeptError {
    Broker::from_bytes(bytes).expect_err("they are wrong")
}

/// What is wrong with the start's memory after this number is written at a byte of its head.
fn with_number(at: usize, number: u32) -> KeptError {
    let mut kept = Broker::start().to_bytes();
    kept[at..at + 4].copy_from_slice(&number.to_le_bytes());
    error(&kept)
}

#[test]
fn it_begins_with_the_head_of_the_docs() {
    let kept = Broker::start().to_bytes();
    assert_eq!((kept.len(), KEPT_BYTES), (54_888, 54_888));
    assert_eq!(kept[..HEAD.len()], HEAD);
    for words in HEAD.chunks(4) {
        let bytes: Vec<_> = words.iter().map(|byte| format!("{byte:02X}")).collect();
        assert!(PAGE.contains(&bytes.join(" ")), "{words:?}");
    }
}

#[test]
fn what_is_not_kept_memory_is_named_so() {
    let kept = Broker::start().to_bytes();
    assert_eq!(error(&vec![0; KEPT_BYTES]), KeptError::Magic);
    assert_eq!(error(&kept[HEAD.len()..]), KeptError::Magic); // without a head
    for length in 0..MAGIC {
        assert_eq!(error(&kept[..length]), KeptError::Magic);
        let mut other = kept.clone();
        other[length] ^= 0x20;
        assert_eq!(error(&other), KeptError::Magic);
    }
    assert_eq!(KeptError::Magic.to_string(), "not kept memory: it begins otherwise");
}

#[test]
fn memory_of_another_edition_is_named_so_whatever_its_size() {
    for layout in [0, LAYOUT - 1, LAYOUT + 1, LAYOUT << 8, u32::MAX] {
        assert_eq!(with_number(MAGIC, layout), KeptError::Layout(layout));
    }
    let mut other = HEAD;
    other[MAGIC] = 7;
    let error = error(&other[..SIZES]);
    assert_eq!(error.to_string(), "kept memory of another edition: its layout is 7, not 6");
}

#[test]
fn another_size_of_a_part_is_named() {
    let sizes = [
        ("tokens", 12_928),
        ("dacls", 4_096),
        ("handles", 512),
        ("control", 20_920),
        ("pending", 16_400),
    ];
    for (place, (part, expected)) in sizes.into_iter().enumerate() {
        for found in [0, expected - 1, expected + 1, u32::MAX] {
            let error = with_number(SIZES + 4 * place, found);
            assert_eq!(error, KeptError::Part { part, found, expected });
        }
    }
    let text = with_number(SIZES, 12_800).to_string();
    assert_eq!(text, "kept memory with 12800 bytes of tokens, not 12928");
}

#[test]
fn memory_that_is_cut_short_or_too_long_is_named_so() {
    let mut kept = Broker::start().to_bytes();
    for length in (MAGIC..HEAD.len() + 2).chain([KEPT_BYTES - 1]) {
        assert_eq!(error(&kept[..length]), KeptError::Length(length));
    }
    let short = error(&kept[..KEPT_BYTES - 1]).to_string();
    assert_eq!(short, "kept memory cut short: 54887 bytes, not 54888");
    kept.push(0);
    let long = error(&kept).to_string();
    assert_eq!(long, "kept memory with more behind it: 54889 bytes, not 54888");
}

#[test]
fn memory_that_is_not_valid_is_refused_by_13() {
    let mut kept = Broker::start().to_bytes();
    kept[HEAD.len()] = 0;
    assert_eq!(error(&kept), KeptError::Refused(Refusal::Memory));
    assert_eq!(error(&kept).to_string(), "kept memory refused 13: the memory is not valid");
}

/// What the header defines this name as.
fn defined(name: &str) -> &'static str {
    let start = format!("#define {name} ");
    HEADER.lines().find_map(|line| line.strip_prefix(&start)).expect("it is defined")
}

#[test]
fn header_makefile_crate_and_changelog_name_one_version() {
    assert_eq!(defined("OBRISKA_VERSION"), format!("\"{VERSION}\""));
    let parts = ["MAJOR", "MINOR", "PATCH"].map(|part| defined(&format!("OBRISKA_VERSION_{part}")));
    assert_eq!(parts.join("."), VERSION);
    let makefile = include_str!("../../../Makefile");
    assert!(makefile.lines().any(|line| line == format!("VERSION = {VERSION}")));
    let changelog = include_str!("../../../CHANGELOG.md");
    let newest = changelog.lines().find(|line| line.starts_with("## ")).expect("an entry");
    assert!(newest.contains(VERSION), "{newest}");
}

#[test]
fn header_crate_and_docs_name_one_layout() {
    assert_eq!(defined("OBRISKA_LAYOUT"), LAYOUT.to_string());
    assert!(PAGE.contains(&format!("This page has layout {LAYOUT}")));
}
