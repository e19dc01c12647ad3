//! Stands for what the kit's runtime gives a program: the words of the command line, and its two outputs.

use crate::alloc::{AllocError, Global};
use std::ffi::OsString;
use std::fmt::Arguments;
use std::io::{self, ErrorKind, Write};

/// Who asks the host.
#[derive(Clone, Copy)]
pub struct HostRuntime;

/// What has an allocator to hand out.
pub trait AllocGlobal {
    fn alloc(&self) -> Global;
}

impl AllocGlobal for HostRuntime {
    fn alloc(&self) -> Global {
        Global
    }
}

/// What knows the words of the command line.
pub trait Env {
    fn words(&self) -> std::vec::Vec<OsString>;
}

impl Env for HostRuntime {
    fn words(&self) -> std::vec::Vec<OsString> {
        std::env::args_os().collect()
    }
}

/// All words of the command line, the program's own name first. A word that is not UTF-8 is an error.
pub fn args(rt: &impl Env) -> io::Result<std::vec::IntoIter<String>> {
    let words: Result<std::vec::Vec<String>, OsString> = rt.words().into_iter().map(OsString::into_string).collect();
    words.map(|words| words.into_iter()).map_err(|_| ErrorKind::InvalidData.into())
}

/// Prints a line on the standard error.
pub fn print_error(line: Arguments<'_>) -> io::Result<()> {
    writeln!(io::stderr(), "{line}")
}

/// The status that a program ends with.
pub struct ExitCode(u8);

impl From<u8> for ExitCode {
    fn from(status: u8) -> Self {
        ExitCode(status)
    }
}

unsafe extern "C" {
    fn signal(number: i32, handler: usize) -> usize;
}

const BROKEN_PIPE: i32 = 13;
const IGNORED: usize = 1;

/// Runs a program as C does: Rust's own start would open what stands for a closed output, where the proved program ends with a
/// fault of the write. An output whose reader is gone is a fault as well, and no signal.
pub fn start(program: fn(HostRuntime) -> ExitCode) -> i32 {
    // SAFETY: the call changes how a signal is handled, and nothing else.
    unsafe { signal(BROKEN_PIPE, IGNORED) };
    i32::from(program(HostRuntime).0)
}

/// A box for a value.
pub fn boxed<T>(_: Global, value: T) -> Result<Box<T>, AllocError> {
    Ok(Box::new(value))
}

/// `eprintln!(rt; "..")`, which prints a line on the standard error and answers whether it could.
#[macro_export]
macro_rules! eprintln_in {
    ($rt:expr; $($line:tt)*) => {{
        let _ = &$rt;
        $crate::host::print_error(format_args!($($line)*))
    }};
}
