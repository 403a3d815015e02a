//! Archives and records that are written. An output doesn't say which file it leads to, so no call here can refuse the
//! one that the bytes are mapped from: that is the caller's to avoid.
use crate::archive::{check_version, part_of, usize_of, Archive};
use crate::error::Error;
use crate::raw::{self, Cursor, Output, Portion};
use std::error;
use std::fmt;
use std::io::{self, Write};

/// How many bytes are held back, so that short pieces go out together.
const HELD: usize = 1 << 16;

/// How much room there is at first for the text of a portion. Most heads are shorter.
const FIRST_TEXT: usize = 1 << 14;

/// Why an output isn't written whole.
#[derive(Debug)]
pub struct WriteError {
    sent: u64,
    cause: Cause,
}

#[derive(Debug)]
enum Cause {
    Library(Error),
    Output(io::Error),
}

impl WriteError {
    /// How many bytes of the output went out.
    #[must_use]
    pub fn sent(&self) -> u64 {
        self.sent
    }

    /// What the library reports: why the bytes are refused, or why no record is made.
    #[must_use]
    pub fn library_error(&self) -> Option<Error> {
        match &self.cause {
            Cause::Library(error) => Some(*error),
            Cause::Output(_) => None,
        }
    }
}

impl fmt::Display for WriteError {
    fn fmt(&self, f: &mut fmt::Formatter<'_>) -> fmt::Result {
        match &self.cause {
            Cause::Library(error) if self.sent == 0 => write!(f, "{error}"),
            Cause::Library(error) => write!(f, "{error} after {}", self.sent),
            Cause::Output(error) => write!(f, "write failed after {}: {error}", self.sent),
        }
    }
}

impl error::Error for WriteError {
    fn source(&self) -> Option<&(dyn error::Error + 'static)> {
        match &self.cause {
            Cause::Library(error) => Some(error),
            Cause::Output(error) => Some(error),
        }
    }
}

/// Bytes on their way to an output.
struct Sink<'o, W> {
    out: &'o mut W,
    held: Vec<u8>,
    sent: u64,
}

impl<'o, W: Write> Sink<'o, W> {
    fn new(out: &'o mut W) -> Self {
        Self { out, held: Vec::with_capacity(HELD), sent: 0 }
    }

    /// Why the output isn't written whole.
    fn failed(&self, cause: Cause) -> WriteError {
        WriteError { sent: self.sent, cause }
    }

    /// Writes bytes, and counts what the output took.
    fn send(&mut self, bytes: &[u8]) -> io::Result<()> {
        let mut rest = bytes;
        while !rest.is_empty() {
            let taken = match self.out.write(rest) {
                Err(error) if error.kind() == io::ErrorKind::Interrupted => continue,
                taken => taken?,
            };
            if taken == 0 {
                return Err(io::ErrorKind::WriteZero.into());
            }
            self.sent += taken as u64;
            rest = rest.get(taken..).unwrap_or_default();
        }
        Ok(())
    }

    /// Writes what is held back.
    fn send_held(&mut self) -> io::Result<()> {
        let held = std::mem::take(&mut self.held);
        let sent = self.send(&held);
        self.held = held;
        self.held.clear();
        sent
    }

    /// Holds bytes back, or writes them after those that are held.
    fn put(&mut self, bytes: &[u8]) -> io::Result<()> {
        if bytes.len() > HELD - self.held.len() {
            self.send_held()?;
        }
        if bytes.len() > HELD {
            return self.send(bytes);
        }
        self.held.extend_from_slice(bytes);
        Ok(())
    }

    /// Puts a portion: its text, with its span in it.
    fn put_portion(&mut self, portion: &Portion, text: &[u8], bytes: &[u8]) -> Result<(), WriteError> {
        let parts = parts_of(portion, text, bytes).map_err(|error| self.failed(Cause::Library(error)))?;
        for part in parts {
            self.put(part).map_err(|error| self.failed(Cause::Output(error)))?;
        }
        Ok(())
    }

    /// Writes all that was put.
    fn end(&mut self) -> Result<(), WriteError> {
        let ended = self.send_held().and_then(|()| self.out.flush());
        ended.map_err(|error| self.failed(Cause::Output(error)))
    }
}

/// The bytes of a portion, of which the span is in these bytes.
fn parts_of<'b>(portion: &Portion, text: &'b [u8], bytes: &'b [u8]) -> Result<[&'b [u8]; 3], Error> {
    let before = part_of(text, 0, portion.before)?;
    let after = part_of(text, portion.before, portion.after)?;
    Ok([before, part_of(bytes, portion.span.offset, portion.span.length)?, after])
}

/// How long the text of a portion is.
fn text_length(portion: &Portion) -> Result<usize, Error> {
    usize_of(portion.before.saturating_add(portion.after))
}

impl Archive<'_> {
    /// Writes the archive in canonical form.
    ///
    /// # Errors
    /// Memory runs out, the bytes aren't what they were, or a write fails: [`WriteError::sent`] is how many bytes went
    /// out.
    pub fn rewrite(&self, out: &mut impl Write) -> Result<(), WriteError> {
        self.write(&Output::Rewritten, out)
    }

    /// Writes it as one of WARC/1.1.
    ///
    /// # Errors
    /// As [`Archive::rewrite`].
    pub fn convert(&self, out: &mut impl Write) -> Result<(), WriteError> {
        self.write(&Output::Converted, out)
    }

    /// Writes it with its records split into segments of `size` bytes.
    ///
    /// # Errors
    /// As [`Archive::rewrite`]. A size of 0 isn't taken.
    pub fn split(&self, size: u64, out: &mut impl Write) -> Result<(), WriteError> {
        self.write(&Output::Split(size), out)
    }

    /// Writes the records at positions, byte for byte. The positions come in any order; each record is written once, in
    /// the archive's order.
    ///
    /// What is written is an archive. A revisit in it may give another reason than before, or the body of another
    /// record that fits (the same id, URI and date, or digest), and a segmented record another gap, or a body, if a
    /// record that it leads to is left out: [`Archive::select_closed`] writes that too.
    ///
    /// # Errors
    /// A position isn't that of a record, and nothing is written; or as [`Archive::rewrite`].
    pub fn select(&self, positions: &[usize], out: &mut impl Write) -> Result<(), WriteError> {
        self.select_by(positions, (false, false), out)
    }

    /// Writes all other records than those at positions, in the same way.
    ///
    /// # Errors
    /// As [`Archive::select`].
    pub fn select_others(&self, positions: &[usize], out: &mut impl Write) -> Result<(), WriteError> {
        self.select_by(positions, (true, false), out)
    }

    /// Writes the records at positions with all that they need: the records on the way to the origin of each, and the
    /// segments of all these. Each capture that is written gives what it gives among all records. What a replay chooses
    /// among captures of a URI may be another, and warcinfo and request records are left out unless they are named.
    ///
    /// # Errors
    /// As [`Archive::select`].
    pub fn select_closed(&self, positions: &[usize], out: &mut impl Write) -> Result<(), WriteError> {
        self.select_by(positions, (false, true), out)
    }

    /// Writes all records that need none of those at positions, so that nothing is left that leads to them. Each
    /// capture that is written gives what it gives among all records.
    ///
    /// # Errors
    /// As [`Archive::select`].
    pub fn select_others_closed(&self, positions: &[usize], out: &mut impl Write) -> Result<(), WriteError> {
        self.select_by(positions, (true, true), out)
    }

    /// Writes the records at positions, or all others, and keeps what they give if that is asked for.
    fn select_by(
        &self,
        positions: &[usize],
        (except, closed): (bool, bool),
        out: &mut impl Write,
    ) -> Result<(), WriteError> {
        let chosen = self
            .chosen(positions, except, closed)
            .map_err(|error| WriteError { sent: 0, cause: Cause::Library(error) })?;
        self.write(&Output::Selected(&chosen), out)
    }

    /// Writes an output portion by portion. What comes before a problem goes out.
    fn write(&self, output: &Output<'_>, out: &mut impl Write) -> Result<(), WriteError> {
        let mut sink = Sink::new(out);
        let put = self.put_portions(output, &mut sink);
        let output_failed = matches!(&put, Err(WriteError { cause: Cause::Output(_), .. }));
        if !output_failed {
            sink.end()?;
        }
        put.map_err(|failure| sink.failed(failure.cause))
    }

    /// Puts all portions of an output, each made once.
    fn put_portions(&self, output: &Output<'_>, sink: &mut Sink<'_, impl Write>) -> Result<(), WriteError> {
        let (mut cursor, mut text) = (Cursor::default(), vec![0; FIRST_TEXT]);
        let failed = |sent, error| WriteError { sent, cause: Cause::Library(error) };
        while let Some(portion) =
            self.next_portion(output, cursor, &mut text).map_err(|error| failed(sink.sent, error))?
        {
            sink.put_portion(&portion, &text, self.bytes())?;
            cursor = portion.next;
        }
        Ok(())
    }

    /// The next portion of an output, with its whole text.
    fn next_portion(&self, output: &Output<'_>, cursor: Cursor, text: &mut Vec<u8>) -> Result<Option<Portion>, Error> {
        loop {
            let Some(portion) = self.handle().next(output, cursor, text)? else {
                return Ok(None);
            };
            let length = text_length(&portion)?;
            if length <= text.len() {
                return Ok(Some(portion));
            }
            text.resize(length.saturating_mul(2), 0);
        }
    }

    /// The positions that a selection writes.
    fn chosen(&self, positions: &[usize], except: bool, closed: bool) -> Result<Vec<u64>, Error> {
        let positions: Vec<u64> = positions.iter().map(|position| *position as u64).collect();
        let mut chosen = vec![0; self.len()];
        let count = self.handle().chosen(&positions, except, closed, &mut chosen)?;
        chosen.truncate(count);
        Ok(chosen)
    }
}

/// What a record is made of.
#[derive(Clone, Copy, Debug)]
pub struct Draft<'d> {
    /// `resource`, `metadata` or `conversion`.
    pub kind: &'d str,
    /// The URI that it is of.
    pub uri: &'d [u8],
    /// Its date, such as `2020-01-01T00:00:00Z`.
    pub date: &'d str,
    /// The UUID of its id.
    pub uuid: &'d str,
    /// Its media type.
    pub media_type: &'d str,
    /// Its block.
    pub block: &'d [u8],
}

/// Writes one record of WARC/1.1, with the digest of its block.
///
/// # Errors
/// No record can be made of these (M1 to M5), and nothing is written; memory runs out; or a write fails:
/// [`WriteError::sent`] is how many bytes went out.
pub fn make(draft: &Draft<'_>, out: &mut impl Write) -> Result<(), WriteError> {
    let (kind, date) = (draft.kind.as_bytes(), draft.date.as_bytes());
    let (uuid, media_type) = (draft.uuid.as_bytes(), draft.media_type.as_bytes());
    let mut sink = Sink::new(out);
    let (portion, text) = made([kind, draft.uri, date, uuid, media_type, draft.block])
        .map_err(|error| sink.failed(Cause::Library(error)))?;
    sink.put_portion(&portion, &text, draft.block)?;
    sink.end()
}

/// The portion of a record that is made, and its whole text.
fn made(parts: [&[u8]; 6]) -> Result<(Portion, Vec<u8>), Error> {
    check_version()?;
    let mut text = vec![0; FIRST_TEXT];
    loop {
        let portion = raw::made(parts, &mut text)?;
        let length = text_length(&portion)?;
        if length <= text.len() {
            return Ok((portion, text));
        }
        text.resize(length, 0);
    }
}
