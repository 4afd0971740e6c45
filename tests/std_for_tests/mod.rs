//! What tests of Rattle have in scope, as Rust.

/// The runtime of a test, which Rattle gives to each.
pub struct Host;

impl Host {
    pub fn alloc(&self) -> alloc::Global {
        alloc::Global
    }
}

macro_rules! assert {
    ($rt:ident; $($of:tt)*) => {{
        let _ = &$rt;
        ::std::assert!($($of)*)
    }};
}

macro_rules! format {
    (in $alloc:expr; $($of:tt)*) => {{
        let _: crate::std_for_tests::alloc::Global = $alloc;
        Ok::<String, crate::std_for_tests::alloc::AllocError>(::std::format!($($of)*))
    }};
}

pub use std::{cmp, fmt, hash, ops, str};

pub mod alloc {
    /// It has all memory.
    #[derive(Clone, Copy)]
    pub struct Global;

    pub type AllocError = std::fmt::Error;
}

pub mod test {
    pub type Fail = Box<dyn std::error::Error>;
}

pub mod collections {
    use super::alloc::{AllocError, Global};
    use std::hash::Hash;

    pub struct HashSet<T>(std::collections::HashSet<T>);

    impl<T: Eq + Hash> HashSet<T> {
        pub fn new(_: Global) -> Self {
            Self(std::collections::HashSet::new())
        }

        pub fn insert(&mut self, value: T) -> Result<bool, AllocError> {
            Ok(self.0.insert(value))
        }

        pub fn contains(&self, value: &T) -> bool {
            self.0.contains(value)
        }
    }
}
