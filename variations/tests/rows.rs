//! The tests of the crate, which the eraser writes, over the Rust that it writes.
#![allow(clippy::clone_on_copy)]

// A test names the crate that it is of.
extern crate font_types_proved as font_types;

#[allow(unused)]
#[macro_use]
#[path = "../../tests/std_for_tests/mod.rs"]
mod std_for_tests;

#[path = "generated"]
mod variations {
    pub use font_variations_proved::*;

    #[path = "mod.rs"]
    mod tests;
}
