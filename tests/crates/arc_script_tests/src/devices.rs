//! Devices over memory, which give or take little, or fail at one call, and long lines for them.

use std::alloc::{AllocError, Global};
use std::io;
use std::io::{ErrorKind, Read, Write};

/// A reader over memory. It gives at most `size` bytes a call.
#[derive(Drop)]
pub struct Pieces<'a> {
    /// What is left.
    pub input: &'a [u8],
    size: usize,
    /// How often it was called.
    pub calls: usize,
    /// The call that fails.
    pub fails_at: Option<usize>,
}

impl<'a> Pieces<'a> {
    /// A reader over these bytes, of which no call fails.
    pub fn new(input: &'a [u8], size: usize) -> Self {
        Pieces {
            input,
            size,
            calls: 0,
            fails_at: None,
        }
    }

    /// The same, of which this call fails.
    pub fn failing(input: &'a [u8], size: usize, call: usize) -> Self {
        Pieces {
            input,
            size,
            calls: 0,
            fails_at: Some(call),
        }
    }
}

impl Read for Pieces<'_> {
    fn read(&mut self, buf: &mut [u8]) -> io::Result<usize> {
        self.calls = self.calls.saturating_add(1);
        if self.fails_at == Some(self.calls) {
            return Err(io::Error::from(ErrorKind::Other));
        }
        let n = self.size.min(buf.len()).min(self.input.len());
        let (piece, rest) = self.input.split_at(n);
        buf[..n].copy_from_slice(piece);
        self.input = rest;
        Ok(n)
    }
}

/// A writer into memory. It takes at most `size` bytes a call, and may fail or take nothing at one.
#[derive(Drop)]
pub struct Taken {
    /// What was taken.
    pub bytes: Vec<u8>,
    size: usize,
    /// How often it was called.
    pub calls: usize,
    /// The call that fails.
    pub fails_at: Option<usize>,
    /// The call that takes nothing.
    pub empty_at: Option<usize>,
}

impl Taken {
    /// A writer that has taken nothing, of which no call fails.
    pub fn new(alloc: Global, size: usize) -> Self {
        Taken {
            bytes: Vec::new(alloc),
            size,
            calls: 0,
            fails_at: None,
            empty_at: None,
        }
    }

    /// The same, of which this call fails.
    pub fn failing(alloc: Global, size: usize, call: usize) -> Self {
        Taken {
            bytes: Vec::new(alloc),
            size,
            calls: 0,
            fails_at: Some(call),
            empty_at: None,
        }
    }

    /// The same, of which this call takes nothing.
    pub fn empty_at(alloc: Global, size: usize, call: usize) -> Self {
        Taken {
            bytes: Vec::new(alloc),
            size,
            calls: 0,
            fails_at: None,
            empty_at: Some(call),
        }
    }
}

impl Write for Taken {
    fn write(&mut self, buf: &[u8]) -> io::Result<usize> {
        self.calls = self.calls.saturating_add(1);
        if self.fails_at == Some(self.calls) {
            return Err(io::Error::from(ErrorKind::Other));
        }
        if self.empty_at == Some(self.calls) {
            return Ok(0);
        }
        let n = self.size.min(buf.len());
        self.bytes.extend_from_slice(&buf[..n])?;
        Ok(n)
    }

    fn flush(&mut self) -> io::Result<()> {
        Ok(())
    }
}

/// So many digits 0 more.
pub fn push_digits(text: &mut Vec<u8>, digits: usize) -> Result<(), AllocError> {
    for _ in 0..digits {
        text.push(b'0')?;
    }
    Ok(())
}
