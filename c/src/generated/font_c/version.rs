// @generated from crates/font_c/src/version.rt by tools/erase

//! The version of the library.

/// Returns the version as `major << 16 | minor << 8 | patch`.
#[unsafe(no_mangle)]
pub extern "C" fn fty_version() -> u32 {
    0x00_0D00
}
