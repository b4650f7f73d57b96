//! Why a call was refused, or where a stream has its fault.

use crate::{Source, sys};
use std::fmt;

/// Why a call was refused, or where a stream has its fault, and what it is.
#[derive(Clone, Copy)]
pub struct Error {
    fault: sys::zimgasol_fault,
    // whether it is a fault of streams, and not of a call
    of_streams: bool,
    at: Option<u64>,
}

/// A fault without anything in it.
pub(crate) const NO_FAULT: sys::zimgasol_fault = sys::zimgasol_fault {
    round: 0,
    source: 0,
    number: sys::ZIMGASOL_DONE,
    first: 0,
    second: 0,
    reserved: [0; 3],
};

impl Error {
    /// The error of a call that returned this status.
    pub(crate) fn of_call(status: sys::zimgasol_status) -> Error {
        let fault = sys::zimgasol_fault { number: status, ..NO_FAULT };
        Error { fault, of_streams: false, at: None }
    }

    /// The fault of streams, at this byte of its source if that is known.
    pub(crate) fn of_streams(fault: sys::zimgasol_fault, at: Option<u64>) -> Error {
        Error { fault, of_streams: true, at }
    }

    /// Returns the number of the fault or the status: `zimgasol-sys` has a constant for each.
    pub fn number(&self) -> u32 {
        self.fault.number
    }

    /// Returns whether an allocation was refused.
    pub fn is_no_memory(&self) -> bool {
        self.fault.number == sys::ZIMGASOL_NO_MEMORY
    }

    /// Returns the source of a stream's fault; None if it is of no one source, or a call was
    /// refused.
    pub fn source(&self) -> Option<Source> {
        match self.fault.source {
            _ if !self.of_streams => None,
            sys::ZIMGASOL_ROUND => None,
            0 => Some(Source::Main),
            j => Some(Source::Channel(j as usize - 1)),
        }
    }

    /// Returns how many rounds, or of one stream how many sections, were counted before a stream's
    /// fault.
    pub fn rounds(&self) -> Option<u64> {
        self.of_streams.then_some(self.fault.round)
    }

    /// Returns the byte of its source at which the item with the fault begins, if it has a place.
    pub fn at(&self) -> Option<u64> {
        self.at
    }

    /// Returns the fault as the library reports it, with what it carries.
    pub fn fault(&self) -> &sys::zimgasol_fault {
        &self.fault
    }
}

/// Returns an error unless a call was done.
pub(crate) fn done(status: sys::zimgasol_status) -> Result<(), Error> {
    if status == sys::ZIMGASOL_DONE { Ok(()) } else { Err(Error::of_call(status)) }
}

fn status_text(status: u32) -> String {
    let mut text = sys::zimgasol_text { bytes: [0u8].as_ptr(), bytes_len: 1 };
    // SAFETY: the call writes a text that lasts as long as the program; the last byte is 0.
    let bytes = unsafe {
        sys::zimgasol_read_status_text(status, &mut text);
        std::slice::from_raw_parts(text.bytes, text.bytes_len)
    };
    String::from_utf8_lossy(&bytes[..bytes.len().saturating_sub(1)]).into_owned()
}

fn fault_text(error: &Error) -> String {
    let mut out = [0u8; 256];
    let (has_at, at) = (error.at.is_some(), error.at.unwrap_or(0));
    // SAFETY: the fault and the buffer are of this function.
    let len = unsafe {
        sys::zimgasol_read_fault_text(&error.fault, has_at, at, out.as_mut_ptr(), out.len())
    };
    String::from_utf8_lossy(&out[..(len as usize).min(out.len() - 1)]).into_owned()
}

impl fmt::Display for Error {
    fn fmt(&self, out: &mut fmt::Formatter<'_>) -> fmt::Result {
        if self.of_streams {
            return out.write_str(&fault_text(self));
        }
        out.write_str(&status_text(self.fault.number))
    }
}

impl fmt::Debug for Error {
    fn fmt(&self, out: &mut fmt::Formatter<'_>) -> fmt::Result {
        write!(out, "Error({}: {self})", self.number())
    }
}

impl PartialEq for Error {
    fn eq(&self, other: &Error) -> bool {
        let key = |it: &Error| {
            (it.fault.number, it.fault.source, it.fault.round, it.fault.first, it.fault.second)
        };
        key(self) == key(other) && self.of_streams == other.of_streams && self.at == other.at
    }
}

impl Eq for Error {}

impl std::error::Error for Error {}
