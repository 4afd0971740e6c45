//! The arguments.

use super::HostRuntime;

/// Why an argument is not in the buffer.
pub enum FillError {
    NotPresent,
    TooLong,
}

pub trait Env {
    /// Copies argument `i` to the start of a buffer, and returns its length.
    fn arg(&self, i: usize, buf: &mut [u8]) -> Result<usize, FillError>;
}

impl Env for HostRuntime {
    fn arg(&self, i: usize, buf: &mut [u8]) -> Result<usize, FillError> {
        let argument = std::env::args_os().nth(i).ok_or(FillError::NotPresent)?;
        let bytes = argument.as_encoded_bytes();
        let start = buf.get_mut(..bytes.len()).ok_or(FillError::TooLong)?;
        start.copy_from_slice(bytes);
        Ok(bytes.len())
    }
}
