//! What is told of a source.

use crate::error::{answered, text_of};
use crate::{Error, ffi};
use std::fmt;
use std::ops::Range;

/// A record of the library.
#[repr(C)]
#[derive(Clone, Copy, Debug, Default)]
pub(crate) struct RawFault {
    start: usize,
    end: usize,
    line: usize,
    column: usize,
    column_utf16: usize,
    severity: u32,
    code: u32,
}

/// How much it matters what is told.
#[derive(Clone, Copy, Debug, PartialEq, Eq, PartialOrd, Ord)]
pub enum Severity {
    /// The source is wrong.
    Error,
    /// The source is against the standard, and is read all the same.
    Warning,
    /// Something is left out.
    Note,
}

impl fmt::Display for Severity {
    fn fmt(&self, f: &mut fmt::Formatter<'_>) -> fmt::Result {
        f.write_str(match self {
            Severity::Error => "error",
            Severity::Warning => "warning",
            Severity::Note => "note",
        })
    }
}

/// Something that is told of a source: of which bytes, where these begin, and what.
#[derive(Clone, Debug, PartialEq, Eq)]
pub struct Fault {
    range: Range<usize>,
    line: usize,
    column: usize,
    column_utf16: usize,
    severity: Severity,
    code: String,
    text: String,
}

impl Fault {
    pub(crate) fn of(raw: RawFault, text: String) -> Result<Fault, Error> {
        let (_, code) = answered(|out| ffi::code_text(raw.code, out))?;
        Ok(Fault {
            range: raw.start..raw.end,
            line: raw.line,
            column: raw.column,
            column_utf16: raw.column_utf16,
            severity: match raw.severity {
                1 => Severity::Error,
                2 => Severity::Warning,
                _ => Severity::Note,
            },
            code: text_of(code)?,
            text,
        })
    }

    /// The bytes of the source that it is about.
    pub fn range(&self) -> Range<usize> {
        self.range.clone()
    }

    /// The line in which it begins, from 1.
    pub fn line(&self) -> usize {
        self.line
    }

    /// The column in which it begins, in characters from 1.
    pub fn column(&self) -> usize {
        self.column
    }

    /// The column in which it begins, in units of UTF-16 from 1.
    pub fn column_utf16(&self) -> usize {
        self.column_utf16
    }

    /// How much it matters.
    pub fn severity(&self) -> Severity {
        self.severity
    }

    /// The word for what kind of thing is told, as `duplicate-name`.
    pub fn code(&self) -> &str {
        &self.code
    }

    /// What is told, in one line.
    pub fn text(&self) -> &str {
        &self.text
    }
}

impl fmt::Display for Fault {
    fn fmt(&self, f: &mut fmt::Formatter<'_>) -> fmt::Result {
        let Fault {
            line,
            column,
            severity,
            text,
            ..
        } = self;
        write!(f, "{line}:{column}: {severity}: {text}")
    }
}
