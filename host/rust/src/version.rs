//! Which edition this is, by the names that include/obriska.h has.

/// The version, as include/obriska.h and pkg-config say it.
pub const VERSION: &str = env!("CARGO_PKG_VERSION");

/// The layout of the lent memory: it is raised whenever that changes, and docs/MEMORY.md says what
/// changed. Memory of another layout has to be started anew.
pub const LAYOUT: u32 = 6;

/// Major, minor and patch of the library that is linked, which [`VERSION`] says where it is this
/// crate's.
#[cfg(feature = "std")]
pub fn library_version() -> [u8; 3] {
    let [_, major, minor, patch] = crate::ffi::version().to_be_bytes();
    [major, minor, patch]
}

/// The layout of the library that is linked, [`LAYOUT`] where it is this crate's.
#[cfg(feature = "std")]
pub fn library_layout() -> u32 {
    crate::ffi::layout()
}
