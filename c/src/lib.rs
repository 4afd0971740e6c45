//! The library for C: the proved source of `crates/font_c`, and of the crates that it uses. An
//! export takes a slice as a pointer and a length, as `font_types.h` declares it.
#![no_std]
#![deny(improper_ctypes_definitions)]
// The exports call a part of the library.
#![allow(dead_code, unused_imports, clippy::all)]

use core::slice::{from_raw_parts, from_raw_parts_mut};

#[path = "../../src/generated/font_base/mod.rs"]
mod font_base;
#[path = "../../src/generated/font_decimal/mod.rs"]
mod font_decimal;
#[path = "../../src/generated/font_fixed/mod.rs"]
mod font_fixed;
#[path = "../../src/generated/font_geom/mod.rs"]
mod font_geom;
#[path = "../../src/generated/font_ids/mod.rs"]
mod font_ids;
#[path = "../../src/generated/font_tags/mod.rs"]
mod font_tags;
#[path = "../../src/generated/font_types/mod.rs"]
mod font_types;

#[path = "generated/font_c/mod.rs"]
pub mod font_c;

#[cfg(doc)]
#[path = "../../src/generated/definitions.rs"]
pub mod definitions;

/// Returns the values that a caller in C passes. If `len` is zero, the pointer may be null.
///
/// # Safety
///
/// Unless `len` is zero, the pointer is valid for `len` values as long as the slice is used.
unsafe fn slice<'a, T>(values: *const T, len: usize) -> &'a [T] {
    match len {
        0 => &[],
        _ => unsafe { from_raw_parts(values, len) },
    }
}

/// Returns the values that a call writes. If `len` is zero, the pointer may be null.
///
/// # Safety
///
/// Unless `len` is zero, the pointer is valid for `len` values as long as the slice is used, and
/// nothing else accesses them.
unsafe fn slice_mut<'a, T>(values: *mut T, len: usize) -> &'a mut [T] {
    match len {
        0 => &mut [],
        _ => unsafe { from_raw_parts_mut(values, len) },
    }
}

unsafe extern "C" {
    safe fn abort() -> !;
}

// No export panics for a caller that keeps to the header.
#[panic_handler]
fn panic(_: &core::panic::PanicInfo<'_>) -> ! {
    abort()
}

// Objects of the compiler's library in the archive refer to this function of Rust's unwinding. It
// is never called, because nothing here unwinds.
#[cfg(all(target_os = "linux", panic = "abort"))]
core::arch::global_asm!(
    ".weak rust_eh_personality",
    ".hidden rust_eh_personality",
    "rust_eh_personality:",
);
