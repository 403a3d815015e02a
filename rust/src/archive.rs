//! Archives, their records and bodies.
use crate::error::{Error, ErrorKind};
use crate::heads::{Headers, Http};
use crate::many::{AllHeaders, Records};
use crate::raw;
use std::cell::{RefCell, RefMut};
use std::fmt;
use std::ops::Range;

/// How a block compares with the digest that its head states.
#[derive(Clone, Copy, Debug, PartialEq, Eq, Hash)]
pub enum Verdict {
    /// It has that digest.
    Good,
    /// It has another one.
    Bad,
    /// The head states none that the call judges: [`Archive::verdict`] judges SHA-1 in base32 alone.
    Unchecked,
}

impl Verdict {
    fn of(number: u32) -> Self {
        match number {
            0 => Self::Good,
            1 => Self::Bad,
            _ => Self::Unchecked,
        }
    }
}

/// How a payload compares with the digest that the head of its record states.
#[derive(Clone, Copy, Debug, PartialEq, Eq, Hash)]
pub enum PayloadVerdict {
    /// It has that digest.
    Good,
    /// It has another one.
    Bad,
    /// It can't be checked, for the first reason that fits.
    Unchecked(Unjudged),
}

/// Why a payload is unchecked.
#[derive(Clone, Copy, Debug, PartialEq, Eq, Hash)]
pub enum Unjudged {
    /// The revisit gives no body.
    Revisit,
    /// The record is a request.
    Request,
    /// The record is a part of one, by its `WARC-Segment-Number`.
    Segment,
    /// The value states no digest of an algorithm that is known.
    Algorithm,
    /// The block of an HTTP response begins with no HTTP head.
    Head,
    /// The digest differs, and a `Transfer-Encoding` says that the payload is coded.
    Coded,
}

impl fmt::Display for Unjudged {
    fn fmt(&self, f: &mut fmt::Formatter<'_>) -> fmt::Result {
        f.write_str(match self {
            Self::Revisit => "revisit",
            Self::Request => "request",
            Self::Segment => "segment",
            Self::Algorithm => "algorithm",
            Self::Head => "head",
            Self::Coded => "coded",
        })
    }
}

/// A record of an archive.
#[derive(Clone, PartialEq, Eq)]
pub struct Record<'a> {
    position: usize,
    offset: u64,
    texts: Vec<u8>,
    ends: [usize; 3],
    is_truncated: bool,
    head: &'a [u8],
    block: &'a [u8],
}

impl<'a> Record<'a> {
    /// Its number, from 0.
    #[must_use]
    pub fn position(&self) -> usize {
        self.position
    }

    /// The offset of its first byte.
    #[must_use]
    pub fn offset(&self) -> u64 {
        self.offset
    }

    /// The value of its `WARC-Type`.
    #[must_use]
    pub fn kind(&self) -> &[u8] {
        self.text(0..self.ends[0])
    }

    /// The value of its `WARC-Date`.
    #[must_use]
    pub fn date(&self) -> &[u8] {
        self.text(self.ends[0]..self.ends[1])
    }

    /// The value of its `WARC-Record-ID`.
    #[must_use]
    pub fn id(&self) -> &[u8] {
        self.text(self.ends[1]..self.ends[2])
    }

    /// Its target, unless it is absent.
    #[must_use]
    pub fn target(&self) -> Option<&[u8]> {
        Some(self.text(self.ends[2]..self.texts.len())).filter(|target| !target.is_empty())
    }

    /// Whether it says that its block isn't whole.
    #[must_use]
    pub fn is_truncated(&self) -> bool {
        self.is_truncated
    }

    /// Its head, from the version line to the empty line, as it is stored.
    #[must_use]
    pub fn head(&self) -> &'a [u8] {
        self.head
    }

    /// Its block, as it is stored.
    #[must_use]
    pub fn block(&self) -> &'a [u8] {
        self.block
    }

    fn text(&self, range: Range<usize>) -> &[u8] {
        self.texts.get(range).unwrap_or_default()
    }
}

impl fmt::Debug for Record<'_> {
    fn fmt(&self, f: &mut fmt::Formatter<'_>) -> fmt::Result {
        f.debug_struct("Record")
            .field("position", &self.position)
            .field("offset", &self.offset)
            .field("kind", &String::from_utf8_lossy(self.kind()))
            .field("date", &String::from_utf8_lossy(self.date()))
            .field("id", &String::from_utf8_lossy(self.id()))
            .field("target", &self.target().map(String::from_utf8_lossy))
            .field("block_length", &self.block.len())
            .finish_non_exhaustive()
    }
}

/// A body: its facts, and the slices of the archive's bytes that, one after another, are its bytes.
#[derive(Clone, PartialEq, Eq)]
#[non_exhaustive]
pub struct Body<'a> {
    /// The position of the chosen capture.
    pub chosen: usize,
    /// The position of the record that gives the body.
    pub given: usize,
    /// The status of the HTTP response, if the record is one.
    pub status: Option<u16>,
    /// Whether a record of it says that it isn't whole.
    pub is_truncated: bool,
    /// Its bytes.
    pub parts: Vec<&'a [u8]>,
}

impl Body<'_> {
    /// How many bytes it has.
    #[must_use]
    pub fn len(&self) -> usize {
        self.parts.iter().map(|part| part.len()).sum()
    }

    /// Whether it has none.
    #[must_use]
    pub fn is_empty(&self) -> bool {
        self.len() == 0
    }

    /// A copy of its bytes.
    #[must_use]
    pub fn to_vec(&self) -> Vec<u8> {
        self.parts.concat()
    }
}

impl fmt::Debug for Body<'_> {
    fn fmt(&self, f: &mut fmt::Formatter<'_>) -> fmt::Result {
        f.debug_struct("Body")
            .field("chosen", &self.chosen)
            .field("given", &self.given)
            .field("status", &self.status)
            .field("length", &self.len())
            .finish_non_exhaustive()
    }
}

/// An open archive over borrowed bytes. It is used by one thread at a time: it is `Send` and not `Sync`.
pub struct Archive<'a> {
    handle: RefCell<raw::Handle<'a>>,
    bytes: &'a [u8],
}

pub(crate) fn check_version() -> Result<(), Error> {
    if raw::abi_version() == raw::ABI_VERSION {
        Ok(())
    } else {
        Err(Error::other_library())
    }
}

/// A number of the library as one of this machine.
pub(crate) fn usize_of(number: u64) -> Result<usize, Error> {
    usize::try_from(number).map_err(|_| Error::changed())
}

/// A part of bytes.
pub(crate) fn part_of(bytes: &[u8], offset: u64, length: u64) -> Result<&[u8], Error> {
    let start = usize_of(offset)?;
    let end = start.checked_add(usize_of(length)?).ok_or_else(Error::changed)?;
    bytes.get(start..end).ok_or_else(Error::changed)
}

impl<'a> Archive<'a> {
    /// Opens an archive over these bytes.
    ///
    /// # Errors
    /// [`ErrorKind::Refused`] with the first fault and its offset; [`ErrorKind::NoMemory`];
    /// [`ErrorKind::OtherLibrary`].
    pub fn open(bytes: &'a [u8]) -> Result<Self, Error> {
        check_version()?;
        Ok(Self { handle: RefCell::new(raw::Handle::open(bytes)?), bytes })
    }

    /// Opens the good front of these bytes: the records before the first fault. Gives that fault too, unless the whole
    /// is an archive.
    ///
    /// # Errors
    /// [`ErrorKind::NoMemory`]; [`ErrorKind::OtherLibrary`].
    pub fn open_front(bytes: &'a [u8]) -> Result<(Self, Option<Error>), Error> {
        check_version()?;
        let (handle, fault) = raw::Handle::open_front(bytes)?;
        let fault = (fault.code != 0).then(|| Error::of(fault));
        let front = bytes.get(..handle.length()).ok_or_else(Error::changed)?;
        Ok((Self { handle: RefCell::new(handle), bytes: front }, fault))
    }

    /// Reads on in bytes that begin with those of the archive. A refusal leaves it as it was.
    ///
    /// # Errors
    /// [`ErrorKind::Changed`] where the bytes are fewer than before, or have another head of the last record;
    /// [`ErrorKind::Refused`] where what follows is damaged or isn't whole; [`ErrorKind::NoMemory`].
    pub fn grow(&mut self, bytes: &'a [u8]) -> Result<(), Error> {
        self.handle.get_mut().grow(bytes)?;
        self.bytes = bytes;
        Ok(())
    }

    /// How many records there are.
    #[must_use]
    pub fn len(&self) -> usize {
        self.handle.borrow().count()
    }

    /// Whether there are none.
    #[must_use]
    pub fn is_empty(&self) -> bool {
        self.len() == 0
    }

    /// The bytes that the archive is over: all, or those of its good front.
    #[must_use]
    pub fn bytes(&self) -> &'a [u8] {
        self.bytes
    }

    /// The record at a position.
    ///
    /// # Errors
    /// [`ErrorKind::NoRecord`].
    pub fn record(&self, position: usize) -> Result<Record<'a>, Error> {
        let (mut row, mut texts) = (raw::Row::default(), vec![0; 1024]);
        let mut length = self.handle.borrow_mut().row(position, &mut row, &mut texts)?;
        if length > texts.len() {
            texts.resize(length, 0);
            length = self.handle.borrow_mut().row(position, &mut row, &mut texts)?;
        }
        texts.truncate(length);
        self.record_of(position, &row, texts)
    }

    /// A record, of its row and its texts.
    pub(crate) fn record_of(&self, position: usize, row: &raw::Row, texts: Vec<u8>) -> Result<Record<'a>, Error> {
        let kind = usize_of(row.type_length.into())?;
        let date = kind.saturating_add(usize_of(row.date_length.into())?);
        let id = date.saturating_add(usize_of(row.id_length.into())?);
        Ok(Record {
            position,
            offset: row.offset,
            texts,
            ends: [kind, date, id],
            is_truncated: row.is_truncated != 0,
            head: self.slice(row.offset, row.block_offset.saturating_sub(row.offset))?,
            block: self.slice(row.block_offset, row.block_length)?,
        })
    }

    /// A part of the bytes.
    fn slice(&self, offset: u64, length: u64) -> Result<&'a [u8], Error> {
        part_of(self.bytes, offset, length)
    }

    /// The fields of the head of the record at a position.
    ///
    /// # Errors
    /// [`ErrorKind::NoRecord`]; [`ErrorKind::NoMemory`]; [`ErrorKind::Changed`].
    pub fn headers(&self, position: usize) -> Result<Headers, Error> {
        self.fields(position, false)
    }

    fn fields(&self, position: usize, is_http: bool) -> Result<Headers, Error> {
        let (mut handle, mut headers) = (self.handle.borrow_mut(), Headers::default());
        while let Some((name, value)) = handle.field(position, headers.len(), is_http)? {
            headers.push(name, value);
        }
        Ok(headers)
    }

    /// The head of the HTTP response that the block of the record at a position begins with; `None` if it begins with
    /// no such head.
    ///
    /// # Errors
    /// [`ErrorKind::NoRecord`]; [`ErrorKind::NoMemory`].
    pub fn http(&self, position: usize) -> Result<Option<Http<'a>>, Error> {
        let headers = match self.fields(position, true) {
            Err(error) if error.kind() == ErrorKind::BadHead => return Ok(None),
            headers => headers?,
        };
        let mut handle = self.handle.borrow_mut();
        let head = handle.http(position)?;
        Ok(Some(Http {
            status: u16::try_from(head.status).map_err(|_| Error::changed())?,
            minor: u8::try_from(head.minor).map_err(|_| Error::changed())?,
            reason: head.reason.to_vec(),
            stored: self.slice(head.body.offset, head.body.length)?,
            headers,
        }))
    }

    /// How the block of the record at a position compares with the digest that its head states. SHA-1 in
    /// base32 is judged alone, as by [`Archive::check`]; [`Archive::stated_verdict`] and [`Archive::fixity`] judge
    /// other digests too. The block is hashed for it, each time anew.
    ///
    /// # Errors
    /// [`ErrorKind::NoRecord`]; [`ErrorKind::NoMemory`]; [`ErrorKind::Changed`].
    pub fn verdict(&self, position: usize) -> Result<Verdict, Error> {
        Ok(Verdict::of(self.handle.borrow_mut().verdict(position)?))
    }

    /// How the block of the record at a position compares with the digest of the first `WARC-Block-Digest` of its head:
    /// MD5, SHA-1, SHA-256, SHA-384 or SHA-512, in hexadecimal or base32, as [`Archive::fixity`] judges it. The block
    /// is hashed for it, each time anew.
    ///
    /// # Errors
    /// [`ErrorKind::NoRecord`]; [`ErrorKind::NoMemory`]; [`ErrorKind::Changed`].
    pub fn stated_verdict(&self, position: usize) -> Result<Verdict, Error> {
        Ok(Verdict::of(self.handle.borrow_mut().stated_verdict(position)?))
    }

    /// How the payload of the record at a position compares with the digest of the first `WARC-Payload-Digest` of its
    /// head, in the same algorithms; `None` if it states none. The payload of an HTTP response is what follows its HTTP
    /// head, as it is stored; that of another record its block; that of a revisit what its replay gives. It is what
    /// `warc fixity --payload` prints. The payload is hashed for it, each time anew.
    ///
    /// # Errors
    /// [`ErrorKind::NoRecord`]; [`ErrorKind::NoMemory`]; [`ErrorKind::Changed`].
    pub fn payload_verdict(&self, position: usize) -> Result<Option<PayloadVerdict>, Error> {
        Ok(Some(match self.handle.borrow_mut().payload_verdict(position)? {
            0 => PayloadVerdict::Good,
            1 => PayloadVerdict::Bad,
            3 => PayloadVerdict::Unchecked(Unjudged::Revisit),
            4 => PayloadVerdict::Unchecked(Unjudged::Request),
            5 => PayloadVerdict::Unchecked(Unjudged::Segment),
            6 => PayloadVerdict::Unchecked(Unjudged::Algorithm),
            7 => PayloadVerdict::Unchecked(Unjudged::Head),
            8 => PayloadVerdict::Unchecked(Unjudged::Coded),
            _ => return Ok(None),
        }))
    }

    /// All records, in their order. One call of the library reads many of them.
    #[must_use]
    pub fn iter(&self) -> Records<'_, 'a> {
        Records::new(self)
    }

    /// The fields of the heads of all records, in their order, as [`Archive::headers`] gives those of one. One call of
    /// the library reads many of them.
    #[must_use]
    pub fn all_headers(&self) -> AllHeaders<'_, 'a> {
        AllHeaders::new(self)
    }

    pub(crate) fn handle(&self) -> RefMut<'_, raw::Handle<'a>> {
        self.handle.borrow_mut()
    }

    /// The positions of the captures of a URI, by date, then by position.
    ///
    /// # Errors
    /// [`ErrorKind::NoMemory`].
    pub fn captures(&self, uri: &[u8]) -> Result<Vec<usize>, Error> {
        let mut positions = vec![0; 64];
        let mut count = self.handle.borrow_mut().captures(uri, &mut positions)?;
        if count > positions.len() {
            positions.resize(count, 0);
            count = self.handle.borrow_mut().captures(uri, &mut positions)?;
        }
        positions.truncate(count);
        positions.into_iter().map(usize_of).collect()
    }

    /// The body of the latest capture of a URI that isn't later than a date.
    ///
    /// # Errors
    /// [`ErrorKind::NotCaptured`] to [`ErrorKind::Coded`] with the reason P1 to P10; [`ErrorKind::BadDate`];
    /// [`ErrorKind::NoMemory`]; [`ErrorKind::Changed`].
    pub fn replay(&self, uri: &[u8], date: &[u8]) -> Result<Body<'a>, Error> {
        self.located(|answer, spans| self.handle.borrow_mut().replay(uri, date, answer, spans))
    }

    /// The body that the capture at a position gives.
    ///
    /// # Errors
    /// [`ErrorKind::Unresolved`] to [`ErrorKind::Coded`] with the reason P3 to P10; [`ErrorKind::NoRecord`];
    /// [`ErrorKind::NotACapture`]; [`ErrorKind::NoMemory`]; [`ErrorKind::Changed`].
    pub fn body(&self, position: usize) -> Result<Body<'a>, Error> {
        self.located(|answer, spans| self.handle.borrow_mut().body(position, answer, spans))
    }

    fn located(
        &self,
        ask: impl Fn(&mut raw::Answer, &mut [raw::Span]) -> Result<usize, raw::Problem>,
    ) -> Result<Body<'a>, Error> {
        let (mut answer, mut spans) = (raw::Answer::default(), vec![raw::Span::default(); 4]);
        let mut count = ask(&mut answer, &mut spans)?;
        if count > spans.len() {
            spans.resize(count, raw::Span::default());
            count = ask(&mut answer, &mut spans)?;
        }
        spans.truncate(count);
        let parts = spans.iter().filter(|span| span.length != 0);
        Ok(Body {
            chosen: usize_of(answer.chosen)?,
            given: usize_of(answer.given)?,
            status: u16::try_from(answer.status).ok().filter(|status| *status != 0),
            is_truncated: answer.is_truncated != 0,
            parts: parts.map(|span| self.slice(span.offset, span.length)).collect::<Result<_, _>>()?,
        })
    }

    /// The lines that `warc list` writes.
    ///
    /// # Errors
    /// [`ErrorKind::NoMemory`].
    pub fn list(&self) -> Result<Vec<u8>, Error> {
        Ok(self.handle.borrow_mut().list()?)
    }

    /// The lines that `warc check` writes: what is wrong with records that can be read.
    ///
    /// # Errors
    /// [`ErrorKind::NoMemory`]; [`ErrorKind::Changed`].
    pub fn check(&self) -> Result<Vec<u8>, Error> {
        Ok(self.handle.borrow_mut().check()?)
    }

    /// The lines that `warc fixity` writes: the blocks that their digests don't fit, and counts.
    ///
    /// # Errors
    /// [`ErrorKind::NoMemory`]; [`ErrorKind::Refused`] where the bytes are no archive any more.
    pub fn fixity(&self) -> Result<Vec<u8>, Error> {
        Ok(self.handle.borrow_mut().fixity()?)
    }
}

impl fmt::Debug for Archive<'_> {
    fn fmt(&self, f: &mut fmt::Formatter<'_>) -> fmt::Result {
        f.debug_struct("Archive").field("records", &self.len()).field("bytes", &self.bytes.len()).finish()
    }
}
