//! Why a call failed.

use std::fmt;
use std::os::raw::c_char;

use trirast_sys as sys;

use crate::values::Values;
use crate::ErrorKind;

/// Why a call failed, and where. Its text is one line, and on a canvas it says what was passed and what may be, as
/// "no such sample: expected 0 to 3, got 4".
#[derive(Clone, Copy, Debug, PartialEq, Eq)]
pub struct Error {
    raw: sys::trirast_error,
    values: Values,
}

impl Error {
    /// The error of a status that is in no draw.
    pub(crate) fn of_status(status: u32) -> Error {
        Error::of_cause(status, 0)
    }

    pub(crate) fn of_cause(status: u32, cause: u32) -> Error {
        let none = sys::TRIRAST_NONE;
        let raw = sys::trirast_error { status, cause, draw: none, element: none, value: none };
        Error { raw, values: Values::None }
    }

    /// Returns this error with values in its text.
    pub(crate) fn with(self, values: Values) -> Error {
        Error { values, ..self }
    }

    /// The error of memory that this crate could not allocate.
    pub(crate) fn out_of_memory() -> Error {
        Error::of_status(sys::TRIRAST_STATUS_OUT_OF_MEMORY)
    }

    /// Returns what kind of error it is.
    pub fn kind(&self) -> ErrorKind {
        ErrorKind::of(&self.raw)
    }

    /// Returns the index of the draw in which the error is, from 0. Returns `None` if it is in no draw.
    pub fn draw(&self) -> Option<usize> {
        index(self.raw.draw)
    }

    /// Returns which one of the draw's own vertices, indices or quads is wrong, from 0, or which ring, polygon or
    /// corner: each [`BatchCause`](crate::BatchCause) says what it names. Returns `None` if it is none of these.
    pub fn element(&self) -> Option<usize> {
        index(self.raw.element)
    }

    /// Returns the index itself, if an index is wrong.
    pub fn value(&self) -> Option<usize> {
        index(self.raw.value)
    }
}

fn index(number: usize) -> Option<usize> {
    (number != sys::TRIRAST_NONE).then_some(number)
}

impl fmt::Display for Error {
    fn fmt(&self, formatter: &mut fmt::Formatter<'_>) -> fmt::Result {
        let mut line = [0u8; sys::TRIRAST_ERROR_MESSAGE_SIZE];
        let buffer = line.as_mut_ptr().cast::<c_char>();
        // SAFETY: the buffer has the length that is passed, and the library keeps no pointer.
        let length = unsafe { sys::trirast_error_message(&self.raw, buffer, line.len()) };
        // The last byte is the zero behind the text.
        let written = &line[..length.min(line.len() - 1)];
        formatter.write_str(std::str::from_utf8(written).unwrap_or_default())?;
        self.values.fmt(formatter)
    }
}

impl std::error::Error for Error {}

/// Makes a call that writes an error and returns its status, and gives that error as a `Result`.
pub(crate) fn checked(call: impl FnOnce(&mut sys::trirast_error) -> u32) -> Result<(), Error> {
    let mut raw = sys::trirast_error::default();
    match call(&mut raw) {
        sys::TRIRAST_STATUS_OK => Ok(()),
        _ => Err(Error { raw, values: Values::None }),
    }
}

/// Gives the status that a call has returned as a `Result`.
pub(crate) fn done(status: u32) -> Result<(), Error> {
    match status {
        sys::TRIRAST_STATUS_OK => Ok(()),
        other => Err(Error::of_status(other)),
    }
}

#[cfg(test)]
mod tests {
    use std::ffi::CStr;

    use super::{Error, ErrorKind};
    use trirast_sys as sys;

    /// Each status that has a string has a kind, and no two have one.
    #[test]
    fn each_status_has_a_kind_of_its_own() {
        // SAFETY: the call takes a number, and returns a string that stays.
        let text = |status| unsafe { CStr::from_ptr(sys::trirast_status_string(status)) };
        let statuses = (1..1000).filter(|&status| text(status).to_bytes() != b"unknown status");
        let kinds: Vec<ErrorKind> = statuses.map(|status| Error::of_status(status).kind()).collect();
        assert!(kinds.len() >= 15);
        for (number, kind) in kinds.iter().enumerate() {
            assert!(!matches!(kind, ErrorKind::Other(_)), "{kind:?}");
            assert!(!kinds[..number].contains(kind), "{kind:?} twice");
        }
        assert_eq!(Error::of_status(999).kind(), ErrorKind::Other(999));
    }

    #[test]
    fn is_in_no_draw_by_itself() {
        assert_eq!((Error::out_of_memory().draw(), Error::out_of_memory().element()), (None, None));
    }
}
