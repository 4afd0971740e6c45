//! The tests of the crates, which the eraser writes, over the Rust that it writes.
#![allow(clippy::clone_on_copy)]

// A test names the crate that it is of.
extern crate font_types_proved as font_base;
extern crate font_types_proved as font_decimal;
extern crate font_types_proved as font_fixed;
extern crate font_types_proved as font_geom;
extern crate font_types_proved as font_ids;
extern crate font_types_proved as font_tags;
extern crate font_types_proved as font_types;

#[macro_use]
mod std_for_tests;

#[path = "generated/mod.rs"]
mod rows;
