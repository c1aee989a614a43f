//! The library that is linked is of this crate's edition.

use obriska::{library_layout, library_version, LAYOUT, VERSION};

#[test]
fn the_library_has_the_crates_version_and_layout() {
    let [major, minor, patch] = library_version();
    assert_eq!(format!("{major}.{minor}.{patch}"), VERSION);
    assert_eq!(library_layout(), LAYOUT);
}
