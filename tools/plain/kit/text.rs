//! Stands for the kit's `itoa`, for its `hex`, and for what makes a `String`. It differs in that a `String` is Rust's own,
//! which ends the program where there is no memory.

use crate::alloc::{AllocError, Global};
use std::str;

/// `String::from_str`, which takes an allocator.
pub trait FromStr: Sized {
    fn from_str(_: Global, text: &str) -> Result<Self, AllocError>;
}

impl FromStr for String {
    fn from_str(_: Global, text: &str) -> Result<Self, AllocError> {
        Ok(text.to_string())
    }
}

const DIGITS: usize = 39;

/// Writes the digits of a number so that they end at a place, and answers where they begin.
pub fn write_digits(number: u64, bytes: &mut [u8], end: usize) -> usize {
    let (mut rest, mut at) = (number, end);
    loop {
        at -= 1;
        bytes[at] = b'0' + (rest % 10) as u8;
        rest /= 10;
        if rest == 0 {
            return at;
        }
    }
}

/// Room for the digits of a number.
pub struct Buffer {
    digits: [u8; DIGITS],
}

impl Buffer {
    pub fn new() -> Self {
        Buffer { digits: [0; DIGITS] }
    }

    pub fn format(&mut self, number: impl Into<u128>) -> &str {
        let (mut wide, mut at) = (number.into(), DIGITS);
        while wide > u128::from(u64::MAX) {
            at -= 1;
            self.digits[at] = b'0' + (wide % 10) as u8;
            wide /= 10;
        }
        let mut rest = wide as u64;
        loop {
            at -= 1;
            self.digits[at] = b'0' + (rest % 10) as u8;
            rest /= 10;
            if rest == 0 {
                return str::from_utf8(&self.digits[at..]).unwrap();
            }
        }
    }
}

pub struct FromHexError;

fn digit(byte: u8) -> Result<u8, FromHexError> {
    let value = char::from(byte).to_digit(16).ok_or(FromHexError)?;
    Ok(value as u8)
}

/// Two digits for each byte.
pub fn encode(_: Global, data: &[u8]) -> Result<String, AllocError> {
    Ok(data.iter().map(|byte| format!("{byte:02x}")).collect())
}

/// Reads two digits for each byte.
pub fn decode_to_slice(digits: &[u8], bytes: &mut [u8]) -> Result<(), FromHexError> {
    if digits.len() != 2 * bytes.len() {
        return Err(FromHexError);
    }
    for (pair, byte) in digits.chunks(2).zip(bytes) {
        *byte = (digit(pair[0])? << 4) | digit(pair[1])?;
    }
    Ok(())
}
