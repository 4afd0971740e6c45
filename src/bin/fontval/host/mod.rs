//! The part of Rattle's std that the program uses. Each of its files imports everything here, as
//! Rattle has it in scope.

pub mod alloc;
pub mod env;
pub mod hex;
pub mod io;

#[allow(unused_imports)]
pub use alloc::Vec;

/// A handle to the host's standard streams and allocator.
pub struct HostRuntime;

impl HostRuntime {
    pub fn stdin(&self) -> io::Stream {
        io::reader(self)
    }

    pub fn alloc(&self) -> alloc::Global {
        alloc::Global
    }
}
