//! The host's files and its standard output, by Rust's own library. Each read, write and put is handed to the host at once, as
//! the proved program does, and in pieces of the same size.

use crate::{Failed, Files, ReadError, Sink, WriteError};
use kit::host::HostRuntime;
use kit::vec::Vec;
use std::fs::File;
use std::io::{self, ErrorKind, Read, Write};
use std::mem::ManuallyDrop;
use std::os::fd::{AsRawFd, FromRawFd};

/// How many bytes one read asks for.
const PIECE: usize = 4096;

/// The files of the host.
pub struct RealFiles;

impl RealFiles {
    pub fn new(_: &HostRuntime) -> Self {
        RealFiles
    }
}

fn read_up_to(file: &mut File, limit: u64) -> Result<Vec<u8>, ReadError> {
    let mut bytes = std::vec::Vec::new();
    let mut piece = [0; PIECE];
    loop {
        let count = match file.read(&mut piece) {
            Ok(count) => count,
            Err(error) if error.kind() == ErrorKind::Interrupted => continue,
            Err(_) => return Err(ReadError::Failed),
        };
        if count == 0 {
            return Ok(Vec(bytes));
        }
        let total = (bytes.len() + count) as u64;
        if total > limit {
            return Err(ReadError::TooLong { count: total });
        }
        bytes.try_reserve(count).map_err(|_| ReadError::NoMemory)?;
        bytes.extend_from_slice(&piece[..count]);
    }
}

impl Files for RealFiles {
    fn read(&mut self, name: &str, limit: u64) -> Result<Vec<u8>, ReadError> {
        let mut file = File::open(name).map_err(|_| ReadError::Failed)?;
        read_up_to(&mut file, limit)
    }

    fn write(&mut self, name: &str, bytes: &[u8]) -> Result<(), WriteError> {
        let mut file = File::create(name).map_err(|_| WriteError::Failed)?;
        file.write_all(bytes).map_err(|_| WriteError::Failed)
    }
}

/// The standard output.
pub struct RealSink {
    out: ManuallyDrop<File>,
}

impl RealSink {
    pub fn new(_: &HostRuntime) -> Self {
        // SAFETY: the descriptor stays open while the program runs, since it is never dropped.
        let out = unsafe { File::from_raw_fd(io::stdout().as_raw_fd()) };
        RealSink { out: ManuallyDrop::new(out) }
    }
}

impl Sink for RealSink {
    fn put(&mut self, bytes: &[u8]) -> Result<(), Failed> {
        self.out.write_all(bytes).map_err(|_| Failed)
    }
}
