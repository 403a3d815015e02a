//! What goes wrong.
use crate::raw;
use std::error;
use std::fmt;

/// What kind of problem the library reports.
#[derive(Clone, Copy, Debug, PartialEq, Eq, Hash)]
#[non_exhaustive]
pub enum ErrorKind {
    /// F1 to F14: the bytes are refused at an offset.
    Refused,
    /// P1 or P2: no capture has the URI, or each is later.
    NotCaptured,
    /// P3 to P6: a revisit leads to no record.
    Unresolved,
    /// P7: segments don't join.
    Segments,
    /// P8: a block isn't what its digest says.
    BadDigest,
    /// P9: the block begins with no HTTP head.
    BadHead,
    /// P10: the body is chunked or compressed.
    Coded,
    /// E1: there is no record at the position.
    NoRecord,
    /// E2: the record there is no capture.
    NotACapture,
    /// The bytes aren't what they were when the archive was opened.
    Changed,
    /// Memory ran out.
    NoMemory,
    /// The text is no date.
    BadDate,
    /// An argument that the library doesn't take.
    BadArgument,
    /// A write failed.
    WriteFailed,
    /// M1 to M5: no record can be made of these.
    NotMade,
    /// The library has another interface than this crate needs.
    OtherLibrary,
}

/// Why the library doesn't give what it was asked for. Its text is what the program `warc` prints.
#[derive(Clone, Copy, PartialEq, Eq, Hash)]
pub struct Error {
    code: u32,
    detail: u32,
    number: u64,
}

impl Error {
    /// What kind of problem it is.
    #[must_use]
    pub const fn kind(&self) -> ErrorKind {
        match self.code {
            1..=14 => ErrorKind::Refused,
            101 | 102 => ErrorKind::NotCaptured,
            103..=106 => ErrorKind::Unresolved,
            107 => ErrorKind::Segments,
            108 => ErrorKind::BadDigest,
            109 => ErrorKind::BadHead,
            110 => ErrorKind::Coded,
            201 => ErrorKind::NoRecord,
            202 => ErrorKind::NotACapture,
            203 => ErrorKind::Changed,
            204 => ErrorKind::NoMemory,
            205 => ErrorKind::BadDate,
            208 => ErrorKind::WriteFailed,
            301..=305 => ErrorKind::NotMade,
            0 => ErrorKind::OtherLibrary,
            _ => ErrorKind::BadArgument,
        }
    }

    /// The offset at which the archive is refused, if it is.
    #[must_use]
    pub const fn offset(&self) -> Option<u64> {
        match self.kind() {
            ErrorKind::Refused => Some(self.number),
            _ => None,
        }
    }

    /// The number of the problem in `warc.h`.
    #[must_use]
    pub const fn code(&self) -> u32 {
        self.code
    }

    pub(crate) const fn of(problem: raw::Problem) -> Self {
        Self { code: problem.code, detail: problem.detail, number: problem.number }
    }

    /// The library has another interface.
    pub(crate) const fn other_library() -> Self {
        Self { code: 0, detail: 0, number: 0 }
    }

    /// Places that the library gave aren't in the bytes, or an offset is none that this machine has.
    pub(crate) const fn changed() -> Self {
        Self { code: 203, detail: 0, number: 0 }
    }
}

impl fmt::Display for Error {
    fn fmt(&self, f: &mut fmt::Formatter<'_>) -> fmt::Result {
        if self.kind() == ErrorKind::OtherLibrary {
            return f.write_str("libwarc has another interface than this crate needs");
        }
        let problem = raw::Problem { code: self.code, detail: self.detail, number: self.number };
        let mut text = [0; 128];
        let length = raw::problem_text(&problem, &mut text).min(text.len());
        f.write_str(&String::from_utf8_lossy(&text[..length]))
    }
}

impl fmt::Debug for Error {
    fn fmt(&self, f: &mut fmt::Formatter<'_>) -> fmt::Result {
        write!(f, "{:?}({self})", self.kind())
    }
}

impl error::Error for Error {}

impl From<raw::Problem> for Error {
    fn from(problem: raw::Problem) -> Self {
        Self::of(problem)
    }
}
