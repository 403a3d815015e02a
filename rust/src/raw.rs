//! warc.h, as Rust declares it, and all `unsafe` of this crate: each call is wrapped by a safe function.
#![allow(unsafe_code)]

use std::marker::PhantomData;
use std::os::raw::c_char;
use std::ptr;
use std::slice;

pub const ABI_VERSION: u32 = 4;

#[repr(C)]
#[derive(Clone, Copy, Default)]
pub struct Problem {
    pub code: u32,
    pub detail: u32,
    pub number: u64,
}

#[repr(C)]
#[derive(Clone, Copy, Default)]
pub struct Row {
    pub offset: u64,
    pub block_offset: u64,
    pub block_length: u64,
    pub type_length: u32,
    pub date_length: u32,
    pub id_length: u32,
    pub target_length: u32,
    pub is_truncated: u32,
}

#[repr(C)]
#[derive(Clone, Copy, Default)]
pub struct Lines {
    pub fields: u32,
    pub length: u32,
}

#[repr(C)]
#[derive(Clone, Copy, Default)]
pub struct Span {
    pub offset: u64,
    pub length: u64,
}

#[repr(C)]
#[derive(Clone, Copy, Default)]
pub struct Answer {
    pub chosen: u64,
    pub given: u64,
    pub length: u64,
    pub status: u32,
    pub is_truncated: u32,
}

#[repr(C)]
#[derive(Clone, Copy, Default)]
pub struct Piece {
    pub offset: u64,
    pub length: u64,
    pub count: u64,
    pub fault: Problem,
}

#[repr(C)]
#[derive(Clone, Copy, Default)]
pub struct Cursor {
    pub place: u64,
    pub segment: u64,
}

#[repr(C)]
#[derive(Clone, Copy, Default)]
pub struct Portion {
    pub before: u64,
    pub after: u64,
    pub span: Span,
    pub next: Cursor,
}

#[repr(C)]
struct CArchive {
    hidden: [u8; 0],
}

#[repr(C)]
struct CField {
    name: *const u8,
    name_length: usize,
    value: *const u8,
    value_length: usize,
}

#[repr(C)]
struct CHttp {
    status: u32,
    minor: u32,
    reason: *const u8,
    reason_length: usize,
    fields: usize,
    body: Span,
}

#[repr(C)]
struct CBytes {
    bytes: *const u8,
    length: usize,
}

#[repr(C)]
struct CDraft {
    parts: [CBytes; 6],
}

type Text = unsafe extern "C" fn(*mut CArchive, *mut u8, usize, *mut Problem) -> usize;
type Judge = unsafe extern "C" fn(*mut CArchive, usize, *mut Problem) -> u32;

extern "C" {
    fn warc_abi_version() -> u32;
    fn warc_problem_text(problem: *const Problem, text: *mut c_char, length: usize) -> usize;
    fn warc_open(archive: *mut *mut CArchive, bytes: *const u8, length: usize, problem: *mut Problem) -> bool;
    fn warc_open_front(
        archive: *mut *mut CArchive,
        bytes: *const u8,
        length: usize,
        fault: *mut Problem,
        problem: *mut Problem,
    ) -> bool;
    fn warc_grow(archive: *mut CArchive, bytes: *const u8, length: usize, problem: *mut Problem) -> bool;
    fn warc_close(archive: *mut CArchive);
    fn warc_count(archive: *const CArchive) -> usize;
    fn warc_length(archive: *const CArchive) -> usize;
    fn warc_row_at(
        archive: *mut CArchive,
        position: usize,
        row: *mut Row,
        texts: *mut u8,
        length: usize,
        problem: *mut Problem,
    ) -> usize;
    fn warc_rows(
        archive: *mut CArchive,
        position: usize,
        rows: *mut Row,
        rows_length: usize,
        text: *mut u8,
        text_length: usize,
        problem: *mut Problem,
    ) -> usize;
    fn warc_fields(
        archive: *mut CArchive,
        position: usize,
        lines: *mut Lines,
        lines_length: usize,
        text: *mut u8,
        text_length: usize,
        problem: *mut Problem,
    ) -> usize;
    fn warc_verdict_at(archive: *mut CArchive, position: usize, problem: *mut Problem) -> u32;
    fn warc_stated_verdict_at(archive: *mut CArchive, position: usize, problem: *mut Problem) -> u32;
    fn warc_payload_verdict_at(archive: *mut CArchive, position: usize, problem: *mut Problem) -> u32;
    fn warc_field_at(
        archive: *mut CArchive,
        position: usize,
        place: usize,
        field: *mut CField,
        problem: *mut Problem,
    ) -> bool;
    fn warc_http_at(archive: *mut CArchive, position: usize, http: *mut CHttp, problem: *mut Problem) -> bool;
    fn warc_http_field_at(
        archive: *mut CArchive,
        position: usize,
        place: usize,
        field: *mut CField,
        problem: *mut Problem,
    ) -> bool;
    fn warc_captures(
        archive: *mut CArchive,
        uri: *const u8,
        uri_length: usize,
        positions: *mut u64,
        length: usize,
        problem: *mut Problem,
    ) -> usize;
    fn warc_replay(
        archive: *mut CArchive,
        uri: *const u8,
        uri_length: usize,
        date: *const u8,
        date_length: usize,
        answer: *mut Answer,
        spans: *mut Span,
        length: usize,
        problem: *mut Problem,
    ) -> usize;
    fn warc_body_at(
        archive: *mut CArchive,
        position: usize,
        answer: *mut Answer,
        spans: *mut Span,
        length: usize,
        problem: *mut Problem,
    ) -> usize;
    fn warc_list(archive: *mut CArchive, text: *mut u8, length: usize, problem: *mut Problem) -> usize;
    fn warc_check(archive: *mut CArchive, text: *mut u8, length: usize, problem: *mut Problem) -> usize;
    fn warc_fixity(archive: *mut CArchive, text: *mut u8, length: usize, problem: *mut Problem) -> usize;
    fn warc_pieces(
        bytes: *const u8,
        length: usize,
        pieces: *mut Piece,
        pieces_length: usize,
        problem: *mut Problem,
    ) -> usize;
    fn warc_next_rewritten(
        archive: *mut CArchive,
        cursor: *const Cursor,
        portion: *mut Portion,
        text: *mut u8,
        length: usize,
        problem: *mut Problem,
    ) -> bool;
    fn warc_next_converted(
        archive: *mut CArchive,
        cursor: *const Cursor,
        portion: *mut Portion,
        text: *mut u8,
        length: usize,
        problem: *mut Problem,
    ) -> bool;
    fn warc_next_split(
        archive: *mut CArchive,
        size: u64,
        cursor: *const Cursor,
        portion: *mut Portion,
        text: *mut u8,
        length: usize,
        problem: *mut Problem,
    ) -> bool;
    fn warc_next_selected(
        archive: *mut CArchive,
        positions: *const u64,
        count: usize,
        cursor: *const Cursor,
        portion: *mut Portion,
        problem: *mut Problem,
    ) -> bool;
    fn warc_chosen(
        archive: *mut CArchive,
        positions: *const u64,
        count: usize,
        except: bool,
        closed: bool,
        chosen: *mut u64,
        chosen_length: usize,
        problem: *mut Problem,
    ) -> usize;
    fn warc_made(
        draft: *const CDraft,
        portion: *mut Portion,
        text: *mut u8,
        length: usize,
        problem: *mut Problem,
    ) -> bool;
}

/// What a call gives, unless it set a problem.
fn checked<T>(value: T, problem: Problem) -> Result<T, Problem> {
    if problem.code == 0 {
        Ok(value)
    } else {
        Err(problem)
    }
}

/// The version of the library's interface.
pub fn abi_version() -> u32 {
    // SAFETY: it takes nothing.
    unsafe { warc_abi_version() }
}

/// Puts the text of a problem, and answers its length.
pub fn problem_text(problem: &Problem, text: &mut [u8]) -> usize {
    // SAFETY: the pointer leads to as many bytes as are said.
    unsafe { warc_problem_text(problem, text.as_mut_ptr().cast(), text.len()) }
}

/// What the HTTP head of a block says. Its reason phrase is `reason` of the archive's bytes.
pub struct HttpHead<'h> {
    pub status: u32,
    pub minor: u32,
    pub reason: &'h [u8],
    pub body: Span,
}

/// A field: its name and its value.
pub type Pair<'h> = (&'h [u8], &'h [u8]);

/// An open archive of the library over bytes that outlive it.
pub struct Handle<'a> {
    archive: *mut CArchive,
    bytes: PhantomData<&'a [u8]>,
}

// SAFETY: an archive may be used in any thread, by one at a time: it isn't Sync.
unsafe impl Send for Handle<'_> {}

impl<'a> Handle<'a> {
    /// Opens an archive over bytes.
    pub fn open(bytes: &'a [u8]) -> Result<Handle<'a>, Problem> {
        let (mut archive, mut problem) = (ptr::null_mut(), Problem::default());
        // SAFETY: the bytes outlive the handle, which closes the archive when it is dropped.
        unsafe { warc_open(&mut archive, bytes.as_ptr(), bytes.len(), &mut problem) };
        checked(Handle { archive, bytes: PhantomData }, problem)
    }

    /// Opens the good front of bytes, and gives the fault after it.
    pub fn open_front(bytes: &'a [u8]) -> Result<(Handle<'a>, Problem), Problem> {
        let (mut archive, mut fault, mut problem) = (ptr::null_mut(), Problem::default(), Problem::default());
        // SAFETY: as in `open`.
        unsafe { warc_open_front(&mut archive, bytes.as_ptr(), bytes.len(), &mut fault, &mut problem) };
        checked((Handle { archive, bytes: PhantomData }, fault), problem)
    }

    /// Reads on in longer bytes.
    pub fn grow(&mut self, bytes: &'a [u8]) -> Result<(), Problem> {
        let mut problem = Problem::default();
        // SAFETY: as in `open`; the old bytes are still there.
        unsafe { warc_grow(self.archive, bytes.as_ptr(), bytes.len(), &mut problem) };
        checked((), problem)
    }

    /// How many records there are.
    pub fn count(&self) -> usize {
        // SAFETY: the archive is open.
        unsafe { warc_count(self.archive) }
    }

    /// How many bytes they have.
    pub fn length(&self) -> usize {
        // SAFETY: the archive is open.
        unsafe { warc_length(self.archive) }
    }

    /// What is kept of a record. Answers the length of its texts.
    pub fn row(&mut self, position: usize, row: &mut Row, texts: &mut [u8]) -> Result<usize, Problem> {
        let mut problem = Problem::default();
        // SAFETY: each pointer leads to as many bytes as are said.
        let length = unsafe { warc_row_at(self.archive, position, row, texts.as_mut_ptr(), texts.len(), &mut problem) };
        checked(length, problem)
    }

    /// The rows of the records from a position on, and their texts, a line each. Answers how many records these are.
    pub fn rows(&mut self, position: usize, rows: &mut [Row], text: &mut [u8]) -> Result<usize, Problem> {
        let mut problem = Problem::default();
        let (out, room) = (rows.as_mut_ptr(), rows.len());
        let (lines, length) = (text.as_mut_ptr(), text.len());
        // SAFETY: each pointer leads to as many elements as are said.
        let count = unsafe { warc_rows(self.archive, position, out, room, lines, length, &mut problem) };
        checked(count, problem)
    }

    /// The fields of the heads of the records from a position on: names and values, a line each. Answers how many
    /// records these are.
    pub fn heads(&mut self, position: usize, heads: &mut [Lines], text: &mut [u8]) -> Result<usize, Problem> {
        let mut problem = Problem::default();
        let (out, room) = (heads.as_mut_ptr(), heads.len());
        let (lines, length) = (text.as_mut_ptr(), text.len());
        // SAFETY: each pointer leads to as many elements as are said.
        let count = unsafe { warc_fields(self.archive, position, out, room, lines, length, &mut problem) };
        checked(count, problem)
    }

    fn judge(&mut self, call: Judge, position: usize) -> Result<u32, Problem> {
        let mut problem = Problem::default();
        // SAFETY: the archive is open.
        let verdict = unsafe { call(self.archive, position, &mut problem) };
        checked(verdict, problem)
    }

    /// How a block compares with its digest, if that is SHA-1 in base32.
    pub fn verdict(&mut self, position: usize) -> Result<u32, Problem> {
        self.judge(warc_verdict_at, position)
    }

    /// How a block compares with its digest.
    pub fn stated_verdict(&mut self, position: usize) -> Result<u32, Problem> {
        self.judge(warc_stated_verdict_at, position)
    }

    /// How a payload compares with its digest.
    pub fn payload_verdict(&mut self, position: usize) -> Result<u32, Problem> {
        self.judge(warc_payload_verdict_at, position)
    }

    /// A field of a record's head, or of the HTTP head of its block. It is the library's until the next call.
    pub fn field(&mut self, position: usize, place: usize, is_http: bool) -> Result<Option<Pair<'_>>, Problem> {
        let mut field = CField { name: ptr::null(), name_length: 0, value: ptr::null(), value_length: 0 };
        let mut problem = Problem::default();
        let call = if is_http { warc_http_field_at } else { warc_field_at };
        // SAFETY: the archive is open. What the field points to stays until the next call over the archive, which takes
        // it mutably, as the field's lifetime does.
        unsafe {
            if !call(self.archive, position, place, &mut field, &mut problem) {
                return checked(None, problem);
            }
            let name = slice::from_raw_parts(field.name, field.name_length);
            Ok(Some((name, slice::from_raw_parts(field.value, field.value_length))))
        }
    }

    /// What the HTTP head of a record's block says.
    pub fn http(&mut self, position: usize) -> Result<HttpHead<'_>, Problem> {
        let none = ptr::null();
        let mut http = CHttp { status: 0, minor: 0, reason: none, reason_length: 0, fields: 0, body: Span::default() };
        let mut problem = Problem::default();
        // SAFETY: as in `field`.
        unsafe {
            if !warc_http_at(self.archive, position, &mut http, &mut problem) {
                return Err(problem);
            }
            let reason = slice::from_raw_parts(http.reason, http.reason_length);
            Ok(HttpHead { status: http.status, minor: http.minor, reason, body: http.body })
        }
    }

    /// The positions of the captures of a URI. Answers how many there are.
    pub fn captures(&mut self, uri: &[u8], positions: &mut [u64]) -> Result<usize, Problem> {
        let mut problem = Problem::default();
        let (out, room) = (positions.as_mut_ptr(), positions.len());
        // SAFETY: each pointer leads to as many elements as are said.
        let count = unsafe { warc_captures(self.archive, uri.as_ptr(), uri.len(), out, room, &mut problem) };
        checked(count, problem)
    }

    /// The body for a URI as of a date. Answers how many spans it has.
    pub fn replay(
        &mut self,
        uri: &[u8],
        date: &[u8],
        answer: &mut Answer,
        spans: &mut [Span],
    ) -> Result<usize, Problem> {
        let mut problem = Problem::default();
        let (out, room) = (spans.as_mut_ptr(), spans.len());
        // SAFETY: each pointer leads to as many elements as are said.
        let count = unsafe {
            let (uri_length, date_length) = (uri.len(), date.len());
            warc_replay(
                self.archive,
                uri.as_ptr(),
                uri_length,
                date.as_ptr(),
                date_length,
                answer,
                out,
                room,
                &mut problem,
            )
        };
        checked(count, problem)
    }

    /// The body that the capture at a position gives, in the same way.
    pub fn body(&mut self, position: usize, answer: &mut Answer, spans: &mut [Span]) -> Result<usize, Problem> {
        let mut problem = Problem::default();
        let (out, room) = (spans.as_mut_ptr(), spans.len());
        // SAFETY: each pointer leads to as many elements as are said.
        let count = unsafe { warc_body_at(self.archive, position, answer, out, room, &mut problem) };
        checked(count, problem)
    }

    /// The next portion of an output, unless nothing is left.
    pub fn next(&mut self, output: &Output<'_>, cursor: Cursor, text: &mut [u8]) -> Result<Option<Portion>, Problem> {
        let (mut portion, mut problem) = (Portion::default(), Problem::default());
        let (archive, out, room) = (self.archive, text.as_mut_ptr(), text.len());
        let (at, to, why): (*const Cursor, *mut Portion, *mut Problem) = (&cursor, &mut portion, &mut problem);
        // SAFETY: the archive is open, and each pointer leads to as many elements as are said.
        let is_there = unsafe {
            match *output {
                Output::Rewritten => warc_next_rewritten(archive, at, to, out, room, why),
                Output::Converted => warc_next_converted(archive, at, to, out, room, why),
                Output::Split(size) => warc_next_split(archive, size, at, to, out, room, why),
                Output::Selected(positions) => {
                    warc_next_selected(archive, positions.as_ptr(), positions.len(), at, to, why)
                }
            }
        };
        checked(is_there.then_some(portion), problem)
    }

    /// The positions that a selection writes. Answers how many there are.
    pub fn chosen(
        &mut self,
        positions: &[u64],
        except: bool,
        closed: bool,
        chosen: &mut [u64],
    ) -> Result<usize, Problem> {
        let mut problem = Problem::default();
        let (at, count, out, room) = (positions.as_ptr(), positions.len(), chosen.as_mut_ptr(), chosen.len());
        // SAFETY: each pointer leads to as many elements as are said.
        let number = unsafe { warc_chosen(self.archive, at, count, except, closed, out, room, &mut problem) };
        checked(number, problem)
    }

    /// The lines that `warc list` writes.
    pub fn list(&mut self) -> Result<Vec<u8>, Problem> {
        self.text(warc_list)
    }

    /// The lines that `warc check` writes.
    pub fn check(&mut self) -> Result<Vec<u8>, Problem> {
        self.text(warc_check)
    }

    /// The lines that `warc fixity` writes.
    pub fn fixity(&mut self) -> Result<Vec<u8>, Problem> {
        self.text(warc_fixity)
    }

    /// A text: its length is asked for first, and then the text, which the library has kept.
    fn text(&mut self, call: Text) -> Result<Vec<u8>, Problem> {
        let mut problem = Problem::default();
        // SAFETY: a null pointer with length 0 is no buffer.
        let length = unsafe { call(self.archive, ptr::null_mut(), 0, &mut problem) };
        let mut text = vec![0; checked(length, problem)?];
        // SAFETY: the pointer leads to as many bytes as are said.
        let length = unsafe { call(self.archive, text.as_mut_ptr(), text.len(), &mut problem) };
        text.truncate(checked(length, problem)?);
        Ok(text)
    }
}

impl Drop for Handle<'_> {
    fn drop(&mut self) {
        // SAFETY: the archive is open or null, and isn't used again.
        unsafe { warc_close(self.archive) }
    }
}

/// The pieces of bytes. Answers how many there are.
pub fn pieces(bytes: &[u8], out: &mut [Piece]) -> Result<usize, Problem> {
    let (pieces, room, mut problem) = (out.as_mut_ptr(), out.len(), Problem::default());
    // SAFETY: each pointer leads to as many elements as are said.
    let count = unsafe { warc_pieces(bytes.as_ptr(), bytes.len(), pieces, room, &mut problem) };
    checked(count, problem)
}

/// What is written of an archive.
pub enum Output<'p> {
    /// It, in canonical form.
    Rewritten,
    /// It, as one of WARC/1.1.
    Converted,
    /// It, with its records split into segments of as many bytes.
    Split(u64),
    /// Its records at these positions, byte for byte.
    Selected(&'p [u64]),
}

/// A record of its kind, URI, date, UUID, media type and block, as one portion whose span is the block.
pub fn made(parts: [&[u8]; 6], text: &mut [u8]) -> Result<Portion, Problem> {
    let draft = CDraft { parts: parts.map(|part| CBytes { bytes: part.as_ptr(), length: part.len() }) };
    let (mut portion, mut problem) = (Portion::default(), Problem::default());
    // SAFETY: each pointer leads to as many bytes as are said.
    unsafe { warc_made(&draft, &mut portion, text.as_mut_ptr(), text.len(), &mut problem) };
    checked(portion, problem)
}
