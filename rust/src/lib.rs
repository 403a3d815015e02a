//! Read, check, replay and write WARC archives (ISO 28500:2017, stored uncompressed) by proved code.
//!
//! ```
//! # fn main() -> Result<(), zogwedu::Error> {
//! let bytes = b"WARC/1.1\r\nWARC-Type: resource\r\n\
//!     WARC-Record-ID: <urn:uuid:00000000-0000-4000-8000-000000000001>\r\n\
//!     WARC-Date: 2020-01-01T00:00:00Z\r\nWARC-Target-URI: http://a.example/x\r\nContent-Length: 3\r\n\r\nabc\r\n\r\n";
//! let archive = zogwedu::Archive::open(bytes)?;
//! for record in &archive {
//!     let record = record?;
//!     assert_eq!(record.target(), Some(&b"http://a.example/x"[..]));
//!     assert_eq!(record.block(), b"abc");
//!     assert_eq!(archive.headers(record.position())?.get("warc-type"), Some(&b"resource"[..]));
//! }
//! let body = archive.replay(b"http://a.example/x", b"2021")?;
//! assert_eq!(body.to_vec(), b"abc");
//! # Ok(())
//! # }
//! ```
//!
//! An [`Archive`] borrows its bytes, which are a mapped file or any other memory. Heads, blocks and bodies are slices
//! of them: nothing is copied. An archive is refused as a whole if any of its records is damaged, with the first fault
//! and its offset; [`Archive::open_front`] opens the records before that, and [`pieces`] gives all runs of good records
//! and the damage between them.
//!
//! A read of a mapped file that fails kills the process by SIGBUS: where the file became shorter, and where its disk or
//! network fails. `std::fs::read` reads a file into memory.
//!
//! What is proved is the library below this crate; this crate is not.

mod archive;
mod error;
mod heads;
mod many;
mod pieces;
mod raw;
mod writing;

pub use archive::{Archive, Body, PayloadVerdict, Record, Unjudged, Verdict};
pub use error::{Error, ErrorKind};
pub use heads::{Fields, Headers, Http};
pub use many::{AllHeaders, Records};
pub use pieces::{pieces, Piece};
pub use writing::{make, Draft, WriteError};
