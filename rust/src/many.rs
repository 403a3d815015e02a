//! Records and heads that are read one after another: many of them by one call of the library.
use crate::archive::{usize_of, Archive, Record};
use crate::error::Error;
use crate::heads::Headers;
use crate::raw;
use std::fmt;
use std::iter::FusedIterator;
use std::ops::Range;
use std::vec;

/// How many records one call is asked for.
const MANY: usize = 64;
/// The most bytes of the lines of one record's texts, and of one head, as warc.h has them.
const MOST_OF_TEXTS: usize = 65_540;
const MOST_OF_HEAD: usize = 98_304;

/// Positions that are to be given, and what was read of the first of them.
#[derive(Clone)]
struct Ahead<T> {
    positions: Range<usize>,
    read: vec::IntoIter<Result<T, Error>>,
}

impl<T> Ahead<T> {
    fn new(count: usize) -> Self {
        Self { positions: 0..count, read: Vec::new().into_iter() }
    }

    /// The next one. `read` reads more, from a position on and at most as many as it is asked for.
    fn next(
        &mut self,
        read: impl FnOnce(usize, usize) -> Result<Vec<Result<T, Error>>, Error>,
    ) -> Option<Result<T, Error>> {
        let position = self.positions.next()?;
        if self.read.len() == 0 {
            match read(position, MANY.min(self.positions.len().saturating_add(1))) {
                Ok(more) => self.read = more.into_iter(),
                Err(error) => return Some(Err(error)),
            }
        }
        Some(self.read.next().unwrap_or_else(|| Err(Error::changed())))
    }

    /// Leaves out the next ones, which aren't read if they weren't yet.
    fn pass(&mut self, count: usize) {
        if let Some(last) = count.checked_sub(1) {
            self.positions.nth(last);
            self.read.nth(last);
        }
    }
}

/// The records of an archive, in their order.
#[derive(Clone)]
pub struct Records<'b, 'a> {
    archive: &'b Archive<'a>,
    ahead: Ahead<Record<'a>>,
    rows: Vec<raw::Row>,
    text: Vec<u8>,
}

impl<'b, 'a> Records<'b, 'a> {
    pub(crate) fn new(archive: &'b Archive<'a>) -> Self {
        Self { archive, ahead: Ahead::new(archive.len()), rows: Vec::new(), text: Vec::new() }
    }
}

/// Reads the records from a position on.
fn read_records<'a>(
    archive: &Archive<'a>,
    position: usize,
    rows: &mut [raw::Row],
    text: &mut [u8],
) -> Result<Vec<Result<Record<'a>, Error>>, Error> {
    let count = archive.handle().rows(position, rows, text)?;
    let mut rest = &*text;
    let numbered = (position..).zip(rows.iter().take(count));
    Ok(numbered.map(|(at, row)| archive.record_of(at, row, texts_of(row, &mut rest)?)).collect())
}

/// Takes the texts of a row from lines, and joins them.
fn texts_of(row: &raw::Row, rest: &mut &[u8]) -> Result<Vec<u8>, Error> {
    let mut texts = Vec::new();
    for length in [row.type_length, row.date_length, row.id_length, row.target_length] {
        let length = usize_of(length.into())?;
        texts.extend_from_slice(rest.get(..length).ok_or_else(Error::changed)?);
        *rest = rest.get(length + 1..).ok_or_else(Error::changed)?;
    }
    Ok(texts)
}

impl<'a> Iterator for Records<'_, 'a> {
    type Item = Result<Record<'a>, Error>;

    fn next(&mut self) -> Option<Self::Item> {
        let Self { archive, ahead, rows, text } = self;
        ahead.next(|position, most| {
            rows.resize(most, raw::Row::default());
            text.resize(MOST_OF_TEXTS, 0);
            read_records(archive, position, rows, text)
        })
    }

    fn nth(&mut self, count: usize) -> Option<Self::Item> {
        self.ahead.pass(count);
        self.next()
    }

    fn size_hint(&self) -> (usize, Option<usize>) {
        self.ahead.positions.size_hint()
    }
}

impl DoubleEndedIterator for Records<'_, '_> {
    fn next_back(&mut self) -> Option<Self::Item> {
        Some(self.archive.record(self.ahead.positions.next_back()?))
    }
}

impl ExactSizeIterator for Records<'_, '_> {}
impl FusedIterator for Records<'_, '_> {}

impl fmt::Debug for Records<'_, '_> {
    fn fmt(&self, f: &mut fmt::Formatter<'_>) -> fmt::Result {
        f.debug_struct("Records").field("positions", &self.ahead.positions).finish_non_exhaustive()
    }
}

impl<'b, 'a> IntoIterator for &'b Archive<'a> {
    type Item = Result<Record<'a>, Error>;
    type IntoIter = Records<'b, 'a>;

    fn into_iter(self) -> Records<'b, 'a> {
        self.iter()
    }
}

/// The fields of the heads of an archive's records, in their order.
#[derive(Clone)]
pub struct AllHeaders<'b, 'a> {
    archive: &'b Archive<'a>,
    ahead: Ahead<Headers>,
    lines: Vec<raw::Lines>,
    text: Vec<u8>,
}

impl<'b, 'a> AllHeaders<'b, 'a> {
    pub(crate) fn new(archive: &'b Archive<'a>) -> Self {
        Self { archive, ahead: Ahead::new(archive.len()), lines: Vec::new(), text: Vec::new() }
    }
}

/// Reads the fields of the heads from a position on.
fn read_heads(
    archive: &Archive<'_>,
    position: usize,
    lines: &mut [raw::Lines],
    text: &mut [u8],
) -> Result<Vec<Result<Headers, Error>>, Error> {
    let count = archive.handle().heads(position, lines, text)?;
    let mut rest = &*text;
    Ok(lines.iter().take(count).map(|it| headers_of(*it, &mut rest)).collect())
}

/// Takes the fields of a head from lines.
fn headers_of(lines: raw::Lines, rest: &mut &[u8]) -> Result<Headers, Error> {
    let length = usize_of(lines.length.into())?;
    let own = rest.get(..length).ok_or_else(Error::changed)?;
    *rest = &rest[length..];
    Ok(Headers::of_lines(own))
}

impl Iterator for AllHeaders<'_, '_> {
    type Item = Result<Headers, Error>;

    fn next(&mut self) -> Option<Self::Item> {
        let Self { archive, ahead, lines, text } = self;
        ahead.next(|position, most| {
            lines.resize(most, raw::Lines::default());
            text.resize(MOST_OF_HEAD, 0);
            read_heads(archive, position, lines, text)
        })
    }

    fn nth(&mut self, count: usize) -> Option<Self::Item> {
        self.ahead.pass(count);
        self.next()
    }

    fn size_hint(&self) -> (usize, Option<usize>) {
        self.ahead.positions.size_hint()
    }
}

impl ExactSizeIterator for AllHeaders<'_, '_> {}
impl FusedIterator for AllHeaders<'_, '_> {}

impl fmt::Debug for AllHeaders<'_, '_> {
    fn fmt(&self, f: &mut fmt::Formatter<'_>) -> fmt::Result {
        f.debug_struct("AllHeaders").field("positions", &self.ahead.positions).finish_non_exhaustive()
    }
}
