//! The lines of the host's standard input, by Rust's own library. A byte is read at a time, as by the proved program, so that
//! nothing after a line is taken before it is asked for.

use crate::{LineError, Lines};
use kit::host::HostRuntime;
use kit::vec::Vec;
use std::fs::File;
use std::io::{self, ErrorKind, Read};
use std::mem::ManuallyDrop;
use std::os::fd::{AsRawFd, FromRawFd};

/// The standard input.
pub struct RealLines {
    input: ManuallyDrop<File>,
    ended: bool,
}

impl RealLines {
    pub fn new(_: &HostRuntime) -> Self {
        // SAFETY: the descriptor stays open while the program runs, since it is never dropped.
        let input = unsafe { File::from_raw_fd(io::stdin().as_raw_fd()) };
        RealLines { input: ManuallyDrop::new(input), ended: false }
    }

    /// The next byte, and none at the end.
    fn next_byte(&mut self) -> Result<Option<u8>, LineError> {
        let mut byte = [0];
        loop {
            match self.input.read(&mut byte) {
                Ok(count) => return Ok((count == 1).then_some(byte[0])),
                Err(error) if error.kind() == ErrorKind::Interrupted => continue,
                Err(_) => return Err(LineError::Failed),
            }
        }
    }
}

impl Lines for RealLines {
    fn next_line(&mut self, limit: u64) -> Result<Option<Vec<u8>>, LineError> {
        if self.ended {
            return Ok(None);
        }
        let mut line = std::vec::Vec::new();
        while let Some(byte) = self.next_byte()? {
            if line.len() as u64 == limit {
                return Err(LineError::TooLong);
            }
            if byte == b'\n' {
                return Ok(Some(Vec(line)));
            }
            line.try_reserve(1).map_err(|_| LineError::NoMemory)?;
            line.push(byte);
        }
        self.ended = line.is_empty();
        Ok(if line.is_empty() { None } else { Some(Vec(line)) })
    }
}
