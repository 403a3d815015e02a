/* warc.h: reads, checks, replays and writes WARC archives (ISO 28500:2017, stored uncompressed) over bytes in memory.
 *
 * The library never copies the bytes of an archive. They are a file that is mapped into memory, or any other memory;
 * heads, blocks and bodies are answered as offsets and lengths within it.
 *
 *     warc_archive *archive;
 *     warc_problem problem;
 *     if (warc_open(&archive, bytes, length, &problem)) {
 *         printf("%zu records\n", warc_count(archive));
 *         warc_close(archive);
 *     }
 *
 * Link with libwarc.a or libwarc.so. Neither needs anything but the C library. docs/C.md has whole programs.
 *
 * UNITS. Offsets and lengths are bytes. Offsets begin at the first byte of the archive. Positions are the numbers of
 * records, from 0, in their order.
 *
 * TEXTS are bytes with a length, and end with no zero byte. A call that gives a text writes as many bytes as the buffer
 * has room for, and answers the length of the whole text: if that is more, call again with a larger buffer. A buffer of
 * length 0 asks for the length alone. Calls that give spans, positions or pieces do the same, in elements. What is in a
 * buffer after what was written stays as it was. With a problem all of it does, but for warc_pieces.
 *
 * PROBLEMS. A call that fails sets `*problem` and answers 0, false, WARC_UNCHECKED or WARC_PAYLOAD_NONE; warc_pieces
 * answers how many pieces come before the problem. One that succeeds sets it to {0}. A problem has a code, listed
 * below, and warc_problem_text gives its text, as the program `warc` prints it. `problem` may be null. Any call with a
 * `problem` may fail with WARC_BAD_ARGUMENT; what else it may fail with is said at the call. Where it isn't said
 * otherwise, a call that fails leaves the archive and the caller's buffers as they were.
 *
 * POINTERS. A null pointer with length 0 is empty bytes, an empty text or no buffer. A null pointer with another
 * length, a length above PTRDIFF_MAX and a null archive are WARC_BAD_ARGUMENT. Any other pointer must lead to as many
 * bytes or elements as its length says; buffers that are written must not overlap anything else that is passed.
 *
 * LIFETIMES. An archive keeps the address of its bytes. They must stay where they are, and as they are, until
 * warc_close, or until a warc_grow that succeeds gives it others. warc_close frees all that an archive holds, and the
 * archive: it isn't used again. Texts, spans and positions are the caller's. What a warc_field points to is the
 * library's, and stays until the next call of warc_field_at for another record of the archive, warc_fields, warc_grow
 * or warc_close.
 *
 * MAPPED FILES. A read of a mapped file that fails kills the process by SIGBUS: where the file became shorter, and
 * where its disk or network fails. No call reads a file by its descriptor. Where that may happen and the process must
 * live, read the file into memory first, which needs memory for all of it.
 *
 * THREADS. An archive is used by one thread at a time, in any thread. Archives share nothing: each thread may use its
 * own, also over the same bytes. No call is made from a signal handler.
 *
 * MEMORY comes from malloc, realloc and free. If it runs out, the answer is WARC_FAULT_MEMORY or WARC_NO_MEMORY, and
 * the archive stays as it was. An archive keeps rows and an index, and no block: 300 bytes for each record of a crawl
 * by wget. It also keeps the text of warc_list, warc_check or warc_fixity that it gave last, until it gives another or
 * grows, so that the second call for a text copies it; and some 200 KiB once warc_field_at was called. warc_pieces
 * takes 256 KiB while it runs, and the memory of one head: some 2 MiB for one of 16,000 fields.
 *
 * TIME. warc_open reads each byte once, warc_grow each new one, warc_open_front each byte twice, and none hashes
 * anything. warc_pieces hashes nothing either; it reads each byte of damage, and more than once where heads seem to
 * begin in it (docs/SPEED.md). A block is hashed where its verdict is asked for: by warc_verdict_at and
 * warc_stated_verdict_at that of one record, by warc_check and warc_fixity those of all records whose digests can be
 * checked, by warc_replay and warc_body_at those that are joined. warc_payload_verdict_at hashes the payload of one
 * record, and of a revisit also the blocks that its replay joins.
 *
 * PROVED. A call over an archive is one call of a library function whose contract says what is answered and what is put
 * into the buffers: put_row, verdict_at, stated_verdict_at, payload_verdict_at, put_captures, put_replay, put_body,
 * put_list, put_check or grow_lent of the crate warc_lent, or count of warc. Around it the archive is taken out of its
 * handle and put back, and a problem becomes numbers. warc_rows makes one such call for each record, and warc_fields
 * one as warc_field_at does. warc_head_at and warc_block_at take theirs from the row. warc_open, warc_open_front,
 * warc_pieces, warc_field_at, warc_http_at, warc_http_field_at, warc_fixity, warc_problem_text and warc_abi_version
 * call functions over bytes that state their contracts themselves; warc_open answers true only for bytes that spell
 * good records, and otherwise gives their first fault, or says that memory ran out. warc_next_rewritten,
 * warc_next_converted, warc_next_split, warc_next_selected and warc_made are one call of put_next_as, put_next_split,
 * put_next_selected or put_made each, whose contract says of which output, at which cursor, the portion is the next,
 * and that its span is within the bytes; warc_chosen is one of put_chosen or put_closed. What goes to a descriptor is
 * these portions one after another, which warc.c puts together; that the descriptor takes them is write's matter. No
 * contract says that a handle holds the archive that was opened: contracts see no value of a struct that C keeps
 * (docs/PROMISES.md). What this page demands of the caller isn't checked by anybody, and warc.c, which checks pointers,
 * keeps texts and finds fields in what was put, isn't proved.
 */
#ifndef WARC_H
#define WARC_H

#include <stdbool.h>
#include <stddef.h>
#include <stdint.h>

#ifdef __cplusplus
extern "C" {
#endif

/* The version of this interface. It changes with any change of a call, a struct or a number here; a call that is added
 * leaves it as it is. */
#define WARC_ABI_VERSION 4

/* The version that the library has. It never fails. A program that loads the library compares it with
 * WARC_ABI_VERSION. */
uint32_t warc_abi_version(void);

/* ---- Problems */

enum {
    /* The archive is refused, at `number`, an offset. */
    WARC_FAULT_VERSION = 1,         /* F1: the bytes there begin no version line. */
    WARC_FAULT_HEAD_TOO_LONG = 2,   /* F2: the head has more than 65,536 bytes. */
    WARC_FAULT_FIELD = 3,           /* F3: a line is no field. */
    WARC_FAULT_MISSING = 4,         /* F4: the field `detail` is absent. */
    WARC_FAULT_REPEATED = 5,        /* F5: the field `detail` is there twice. */
    WARC_FAULT_LENGTH = 6,          /* F6: Content-Length is no number of at most 2^40. */
    WARC_FAULT_BAD_TYPE = 7,        /* F7: WARC-Type is no token. */
    WARC_FAULT_ID = 8,              /* F8: WARC-Record-ID has no id. */
    WARC_FAULT_DATE = 9,            /* F9: WARC-Date is no date. */
    WARC_FAULT_END = 10,            /* F10: no CRLF CRLF follows the block. */
    WARC_FAULT_TRUNCATED = 11,      /* F11: the bytes end before the record does. */
    WARC_FAULT_TOO_LONG = 12,       /* F12: there is a byte at offset 2^48. */
    WARC_FAULT_READ = 13,           /* F13: a read failed. No call of this page answers it. */
    WARC_FAULT_MEMORY = 14,         /* F14: memory ran out. */

    /* There is no body. */
    WARC_NO_CAPTURE_OF_URI = 101,   /* P1: no capture has the URI. */
    WARC_NOT_YET = 102,             /* P2: each capture of the URI is later. */
    WARC_UNKNOWN_PROFILE = 103,     /* P3: a revisit has an unknown profile. */
    WARC_NO_REFERENCE = 104,        /* P4: a revisit names nothing, and no record has its payload digest. */
    WARC_UNRESOLVED = 105,          /* P5: what a revisit names isn't there. */
    WARC_LOOP = 106,                /* P6: revisits lead back to themselves. */
    WARC_SEGMENT = 107,             /* P7: segments don't join, by the gap `detail`, G1 to G6, at segment `number`. */
    WARC_BAD_DIGEST = 108,          /* P8: a block isn't what its digest says. */
    WARC_BAD_HEAD = 109,            /* P9: the block begins with no HTTP head. */
    WARC_CODED = 110,               /* P10: the body is chunked or compressed. */

    WARC_NO_RECORD = 201,           /* E1: there is no record at the position. */
    WARC_NOT_A_CAPTURE = 202,       /* E2: the record there is no capture. */
    WARC_CHANGED = 203,             /* The bytes aren't what they were when the archive was opened. */
    WARC_NO_MEMORY = 204,           /* Memory ran out. */
    WARC_BAD_DATE = 205,            /* The text is no date. */
    WARC_NOT_OPEN = 206,            /* No archive is open. No call of this page answers it. */
    WARC_BAD_ARGUMENT = 207,        /* A pointer is null, a length above PTRDIFF_MAX, or the output the file that is
                                     * read. */
    WARC_WRITE_FAILED = 208,        /* A write failed, or took nothing. */

    /* No record is made. */
    WARC_MADE_DATE = 301,           /* M1: the date is none. */
    WARC_MADE_TEXT = 302,           /* M2: the URI, the UUID or the type is none. */
    WARC_MADE_TOO_LONG = 303,       /* M3: the head or the block is too long. */
    WARC_MADE_NO_MEMORY = 304,      /* M4: memory ran out. */
    WARC_MADE_KIND = 305            /* M5: the kind isn't resource, metadata or conversion. */
};

/* `detail` of WARC_FAULT_MISSING and WARC_FAULT_REPEATED. */
enum { WARC_CONTENT_LENGTH = 1, WARC_TYPE = 2, WARC_RECORD_ID = 3, WARC_DATE = 4 };

/* `code` is 0 if there is no problem. `detail` and `number` are 0 where the list above gives them no meaning. */
typedef struct {
    uint32_t code;
    uint32_t detail;
    uint64_t number;
} warc_problem;

/* The text of a problem, such as "F10 End at 274"; 64 bytes hold any. Answers its length; 0 for a null pointer and for
 * what is no problem, and where memory runs out. */
size_t warc_problem_text(const warc_problem *problem, char *text, size_t text_length);

/* ---- An archive */

/* An open archive. */
typedef struct warc_archive warc_archive;

/* Opens an archive over these bytes: reads them once, in order, and hashes nothing. Answers true and sets `*archive`.
 * Answers false and sets `*archive` to null where the bytes are refused, with the first fault and its offset
 * (WARC_FAULT_VERSION to WARC_FAULT_TOO_LONG), or where memory runs out (WARC_FAULT_MEMORY, WARC_NO_MEMORY). */
bool warc_open(warc_archive **archive, const uint8_t *bytes, size_t length, warc_problem *problem);

/* Opens the good front of these bytes: the records before their first fault. Nothing is skipped and nothing is
 * mended. Answers true, sets `*archive`, and sets `*fault` to the fault after these records, or to {0} where the
 * whole is an archive. The front may have no records. Answers false and sets `*archive` to null where memory runs
 * out. `fault` may be null. */
bool warc_open_front(warc_archive **archive, const uint8_t *bytes, size_t length, warc_problem *fault,
                     warc_problem *problem);

/* Reads on in bytes that begin with those of the archive, where it stopped, and has these bytes from then on. Both
 * the old and the new bytes must be there during the call. Answers true if the archive has these bytes now; bytes of
 * the old length add no record. Answers false, and leaves the archive as it was, over its old bytes: WARC_CHANGED
 * where the new bytes are fewer, or where the head of the last record isn't what it was, byte for byte (the bytes
 * before it aren't compared); or a fault of what follows, as warc_open gives it. */
bool warc_grow(warc_archive *archive, const uint8_t *bytes, size_t length, warc_problem *problem);

/* Closes an archive and frees it. A null pointer does nothing. */
void warc_close(warc_archive *archive);

/* How many records there are; 0 for a null pointer. */
size_t warc_count(const warc_archive *archive);

/* How many bytes the records have, from offset 0 on: all that the archive was opened over, or those of the good
 * front; 0 for a null pointer. */
size_t warc_length(const warc_archive *archive);

/* ---- Pieces of bytes, which may be damaged */

/* A piece: a run of good records, or damage, which are bytes at none of which a good record begins that is whole in
 * the bytes. Of a run `count` is how many records it has, at least 1, and `fault` is {0}. Of damage `count` is 0, and
 * `fault` says why no good record begins with its first byte: WARC_FAULT_VERSION to WARC_FAULT_TRUNCATED, at an offset
 * in the bytes that may be beyond the damage. */
typedef struct {
    uint64_t offset;
    uint64_t length;
    uint64_t count;
    warc_problem fault;
} warc_piece;

/* The pieces of these bytes, in order. They follow one another without gap or overlap from offset 0 to the end, and
 * runs and damage come in turn: an archive is one piece, and no bytes have none. The bytes of all runs, joined, are an
 * archive of their records. Answers how many pieces there are; if that is more than `pieces_length`, only the first
 * ones are written. 0 without bytes. The problem is WARC_FAULT_MEMORY, or WARC_FAULT_TOO_LONG for bytes that go on at
 * offset 2^48: then the pieces before it are written, as far as there is room, and the answer is how many they are. */
size_t warc_pieces(const uint8_t *bytes, size_t length, warc_piece *pieces, size_t pieces_length,
                   warc_problem *problem);

/* ---- Records */

/* What is kept of a record. `offset` is that of its first byte; its head ends where its block begins. Each text has
 * fewer than 65,536 bytes. `is_truncated` is 1 if the record says that its block isn't whole. */
typedef struct {
    uint64_t offset;
    uint64_t block_offset;
    uint64_t block_length;
    uint32_t type_length;
    uint32_t date_length;
    uint32_t id_length;
    uint32_t target_length;
    uint32_t is_truncated;
} warc_row;

/* What is kept of the record at a position, and its texts: its type, date, id and target, one after another, without
 * separators. An absent target has length 0. 65,536 bytes hold the texts of any record. Answers their length, 0 with
 * WARC_NO_RECORD. `row` may be null. */
size_t warc_row_at(warc_archive *archive, size_t position, warc_row *row, uint8_t *texts, size_t texts_length,
                   warc_problem *problem);

/* What is kept of many records, in one call: from a position on, in order. Writes the row of each, and to `text` its
 * type, its date, its id and its target, each with a line feed after it, which none of them has: of as many records
 * as there is room for. 65,540 bytes hold the lines of any record. Answers how many records these are: 0 at the end
 * of the archive, and where there is no room for the first one. What is in the buffers after these is of no meaning.
 * Nothing of the archive's bytes is read. */
size_t warc_rows(warc_archive *archive, size_t position, warc_row *rows, size_t rows_length, uint8_t *text,
                 size_t text_length, warc_problem *problem);

/* A part of the archive's bytes. */
typedef struct {
    uint64_t offset;
    uint64_t length;
} warc_span;

/* Where the head and the block of the record at a position are. The head ends with its empty line. Answer true and set
 * `*span`; false with WARC_NO_RECORD. */
bool warc_head_at(warc_archive *archive, size_t position, warc_span *span, warc_problem *problem);
bool warc_block_at(warc_archive *archive, size_t position, warc_span *span, warc_problem *problem);

/* How a block compares with the digest that its head states. It is unchecked if none can be checked. */
enum { WARC_GOOD = 0, WARC_BAD = 1, WARC_UNCHECKED = 2 };

/* How the block of the record at a position compares with the digest of the first WARC-Block-Digest of its head:
 * WARC_GOOD, WARC_BAD or WARC_UNCHECKED, the last also with a problem: WARC_NO_RECORD, WARC_NO_MEMORY or WARC_CHANGED,
 * which says that the bytes aren't what they were. warc_stated_verdict_at judges MD5, SHA-1, SHA-256, SHA-384 and
 * SHA-512, in hexadecimal or base32, as warc_fixity does; warc_verdict_at SHA-1 in base32 alone, as warc_check (N4) and
 * replays (P8) do. Each reads the head again, and the block too if its digest can be checked. Nothing of it is kept:
 * each call reads anew. */
uint32_t warc_verdict_at(warc_archive *archive, size_t position, warc_problem *problem);
uint32_t warc_stated_verdict_at(warc_archive *archive, size_t position, warc_problem *problem);

/* How a payload compares with the digest that the head of its record states. From WARC_PAYLOAD_REVISIT on it is
 * unchecked, for the first reason that fits. */
enum {
    WARC_PAYLOAD_GOOD = 0,
    WARC_PAYLOAD_BAD = 1,
    WARC_PAYLOAD_NONE = 2,      /* No digest is stated: the first WARC-Payload-Digest is empty, or there is none. */
    WARC_PAYLOAD_REVISIT = 3,   /* The revisit gives no body. */
    WARC_PAYLOAD_REQUEST = 4,   /* The record is a request: its payload isn't judged. */
    WARC_PAYLOAD_SEGMENT = 5,   /* WARC-Segment-Number isn't empty: the digest is of the joined payload. */
    WARC_PAYLOAD_ALGORITHM = 6, /* The value states no digest of an algorithm that is known. */
    WARC_PAYLOAD_HEAD = 7,      /* The block of an HTTP response begins with no HTTP head. */
    WARC_PAYLOAD_CODED = 8      /* The digest differs, and a Transfer-Encoding says that the payload is coded. */
};

/* How the payload of the record at a position compares with the digest of the first WARC-Payload-Digest of its head, as
 * `warc fixity --payload` judges it: WARC_PAYLOAD_GOOD to WARC_PAYLOAD_CODED; WARC_PAYLOAD_NONE also with a problem:
 * WARC_NO_RECORD, WARC_NO_MEMORY or WARC_CHANGED. The payload of an HTTP response is what follows its HTTP head, as it
 * is stored; that of another record its block; that of a revisit what its replay gives. Nothing of it is kept: each
 * call reads anew, for a revisit what it leads to. */
uint32_t warc_payload_verdict_at(warc_archive *archive, size_t position, warc_problem *problem);

/* ---- Fields */

/* A field: its name as it is written, and its value. Neither ends with a zero byte. */
typedef struct {
    const uint8_t *name;
    size_t name_length;
    const uint8_t *value;
    size_t value_length;
} warc_field;

/* The field at a place, counted from 0, of the head of the record at a position. Names may repeat; they are in the
 * order of the head. The value of a folded field is one line. Answers true and sets `*field`; false with {0} where
 * the head has no more fields; false with WARC_NO_RECORD, WARC_NO_MEMORY, or WARC_CHANGED where the bytes aren't
 * what they were. The head is parsed once for all its fields, as long as no other record's are asked for. */
bool warc_field_at(warc_archive *archive, size_t position, size_t place, warc_field *field, warc_problem *problem);

/* How many fields a head has, and how many bytes their lines have. */
typedef struct {
    uint32_t fields;
    uint32_t length;
} warc_lines;

/* The fields of many heads in one call: those of the records from a position on, in order. Writes to `text` the name
 * and the value of each field, each with a line feed after it, which none of them has, and to `lines` how many these
 * are for each head: of as many records as there is room for. 98,304 bytes hold the lines of any head. Answers how many
 * records these are: 0 at the end of the archive, where there is no room for the first one, and where the first one
 * fails, as warc_field_at does. What is in the buffers after these is of no meaning. What a warc_field of this archive
 * points to doesn't stay. */
size_t warc_fields(warc_archive *archive, size_t position, warc_lines *lines, size_t lines_length, uint8_t *text,
                   size_t text_length, warc_problem *problem);

/* What the head of an HTTP response says, which begins the block of a record: the three digits of its status, its
 * minor version (1 for HTTP/1.1), its reason phrase, how many fields it has, and where the body is, in the block of
 * this record and as it is stored: chunked or compressed where a field says so. */
typedef struct {
    uint32_t status;
    uint32_t minor;
    const uint8_t *reason;
    size_t reason_length;
    size_t fields;
    warc_span body;
} warc_http;

/* What the head of the HTTP response says that begins the block of the record at a position, whatever the record's
 * type. The head is read as a replay reads it. Answers true and sets `*http`; false with WARC_NO_RECORD, or
 * WARC_BAD_HEAD where the block begins with no whole head of at most 65,536 bytes and 256 fields. */
bool warc_http_at(warc_archive *archive, size_t position, warc_http *http, warc_problem *problem);

/* The field at a place, counted from 0, of that head. It points into the archive's bytes; its value is without the
 * white space around it. Answers true and sets `*field`; false with {0} where there are no more fields, and else as
 * warc_http_at. The head is parsed once for all its fields, as long as no other record's are asked for. */
bool warc_http_field_at(warc_archive *archive, size_t position, size_t place, warc_field *field, warc_problem *problem);

/* ---- Bodies */

/* The positions of the captures of a URI (responses, resources and revisits), by instant, then by position. Answers how
 * many there are; if that is more than `positions_length`, only the first ones are written. 0 with WARC_NO_MEMORY. */
size_t warc_captures(warc_archive *archive, const uint8_t *uri, size_t uri_length, uint64_t *positions,
                     size_t positions_length, warc_problem *problem);

/* What is said of a body: the positions of the chosen capture and of the record that gives the body, its length, the
 * status of the HTTP response or 0, and 1 if a record of it says that it is truncated. */
typedef struct {
    uint64_t chosen;
    uint64_t given;
    uint64_t length;
    uint32_t status;
    uint32_t is_truncated;
} warc_answer;

/* The body that was captured of a URI as of a date (the latest capture that isn't later): what is said of it, and
 * the spans whose bytes, one after another, are the body. Most bodies have one span; one in segments has more, and a
 * span may be empty. Answers the number of spans, 0 with a problem; if that is more than `spans_length`, only the
 * first ones are written. A date is YYYY, YYYY-MM, YYYY-MM-DD, YYYY-MM-DDThh:mmZ or YYYY-MM-DDThh:mm:ssZ, with up to
 * nine digits of a fraction. Fails with WARC_NO_CAPTURE_OF_URI to WARC_CODED, WARC_BAD_DATE, WARC_NO_MEMORY or
 * WARC_CHANGED. `answer` may be null; with the problems from WARC_SEGMENT to WARC_CODED its `chosen` and `given` are
 * set, and the rest of it stays. */
size_t warc_replay(warc_archive *archive, const uint8_t *uri, size_t uri_length, const uint8_t *date,
                   size_t date_length, warc_answer *answer, warc_span *spans, size_t spans_length,
                   warc_problem *problem);

/* The body that the capture at a position gives, in the same way. Fails with WARC_UNKNOWN_PROFILE to WARC_CODED,
 * WARC_NO_RECORD, WARC_NOT_A_CAPTURE, WARC_NO_MEMORY or WARC_CHANGED. */
size_t warc_body_at(warc_archive *archive, size_t position, warc_answer *answer, warc_span *spans,
                    size_t spans_length, warc_problem *problem);

/* ---- Texts of the whole archive. Each fails with WARC_NO_MEMORY, and the last two with WARC_CHANGED. */

/* The lines that `warc list` writes. Answers their length, 0 with a problem or without records. */
size_t warc_list(warc_archive *archive, uint8_t *text, size_t text_length, warc_problem *problem);

/* The lines that `warc check` writes: what is wrong with records that can be read. Answers their length, 0 with a
 * problem or without findings. */
size_t warc_check(warc_archive *archive, uint8_t *text, size_t text_length, warc_problem *problem);

/* The lines that `warc fixity` writes: the blocks that their digests don't fit, and counts. Answers their length, 0
 * with a problem. Bytes that are no archive any more are refused with their fault. */
size_t warc_fixity(warc_archive *archive, uint8_t *text, size_t text_length, warc_problem *problem);

/* ---- What is written, portion by portion
 *
 * An output is asked for portion by portion, each made once, and all of them one after another are the output. A cursor
 * says where the next portion is: {0} before the first, and then what the portion before it says. A call answers true
 * and sets `*portion`; false with {0} where nothing is left; and false with a problem: WARC_NO_MEMORY, or WARC_CHANGED
 * where the bytes aren't what they were. After a problem the same cursor may be asked again. */

/* Where the next portion of an output is. */
typedef struct {
    uint64_t place;
    uint64_t segment;
} warc_cursor;

/* A portion of an output: the first `before` bytes of its text, the bytes of its span, and the other `after` bytes of
 * its text. The span is one of the archive's bytes, or of the block of a record that is made. `next` is the cursor
 * after the portion. */
typedef struct {
    uint64_t before;
    uint64_t after;
    warc_span span;
    warc_cursor next;
} warc_portion;

/* The next portion of the archive in canonical form, as one of WARC/1.1, or with its records split into segments of
 * `size` bytes, as the program's commands write it: a record, or a segment of one. Its text is written as far as there
 * is room: if `before + after` is more than `text_length`, ask again with the same cursor. 65,540 bytes hold any
 * text. A segment's digest is computed with its portion. A size of 0 is WARC_BAD_ARGUMENT. */
bool warc_next_rewritten(warc_archive *archive, const warc_cursor *cursor, warc_portion *portion, uint8_t *text,
                         size_t text_length, warc_problem *problem);
bool warc_next_converted(warc_archive *archive, const warc_cursor *cursor, warc_portion *portion, uint8_t *text,
                         size_t text_length, warc_problem *problem);
bool warc_next_split(warc_archive *archive, uint64_t size, const warc_cursor *cursor, warc_portion *portion,
                     uint8_t *text, size_t text_length, warc_problem *problem);

/* The next of the records at `count` positions, which are written byte for byte: it has no text. Fails with
 * WARC_NO_RECORD where the position isn't that of a record, and never with WARC_NO_MEMORY. */
bool warc_next_selected(warc_archive *archive, const uint64_t *positions, size_t count, const warc_cursor *cursor,
                        warc_portion *portion, warc_problem *problem);

/* The positions of the records that a selection writes, ascending, each once: those at `count` positions, or with
 * `except` all others. The positions come in any order, and any of them may be there twice. Answers how many there are;
 * if that is more than `chosen_length`, only the first ones are written. There are at most warc_count. Answers 0 with
 * WARC_NO_RECORD where a position isn't that of a record, with WARC_NO_MEMORY or with WARC_CHANGED.
 * With `closed` answers stay: with each record all that it needs is chosen, the records on the way to its origin and
 * the segments of all these; or with `except` no record that needs one of those at the positions. Then each capture
 * that is written gives what it gives among all records. Without `closed` a revisit may give another reason than
 * before, or the body of another record that fits (the same id, URI and date, or digest), and a segmented record
 * another gap, or a body, if a record that it leads to is left out. Neither keeps what a replay chooses among captures
 * of a URI, nor warcinfo and request records. */
size_t warc_chosen(warc_archive *archive, const uint64_t *positions, size_t count, bool except, bool closed,
                   uint64_t *chosen, size_t chosen_length, warc_problem *problem);

/* Bytes that are passed. */
typedef struct {
    const uint8_t *bytes;
    size_t length;
} warc_bytes;

/* What a record is made of: its kind (resource, metadata or conversion), the URI that it is of, its date, the UUID
 * of its id, its media type, and its block. */
typedef struct {
    warc_bytes kind;
    warc_bytes uri;
    warc_bytes date;
    warc_bytes uuid;
    warc_bytes type;
    warc_bytes block;
} warc_draft;

/* One record of WARC/1.1, with the digest of its block, as the command `warc write` writes it: one portion, whose span
 * is the draft's block. Fails with WARC_MADE_DATE to WARC_MADE_KIND where no record is made. It takes memory for the
 * block once more. */
bool warc_made(const warc_draft *draft, warc_portion *portion, uint8_t *text, size_t text_length,
               warc_problem *problem);

/* ---- Writing to a file descriptor, which stays open. Each call answers true if all is written, and then `*sent` is 0.
 * It answers false with WARC_WRITE_FAILED, WARC_NO_MEMORY or WARC_CHANGED where the output ends early, and `*sent` is
 * how many bytes of it went out. An interrupted write, one to a descriptor that would block, and one to a negative
 * descriptor fail: nothing is tried again. A write to a pipe that nobody reads fails and raises no SIGPIPE. With any
 * other problem nothing is written, and `*sent` is 0. `sent` may be null. Nothing is synced: that is the caller's. Each
 * call takes 144 KiB while it runs, or some more for long heads, and warc_select 8 bytes for each record. */

/* Writes the archive in canonical form, as one of WARC/1.1, or with its records split into segments of `size` bytes.
 * The archive's bytes must not be those of the file that is written to: where they are mapped from it, as far as
 * /proc/self/maps says, each of these calls is WARC_BAD_ARGUMENT before it reads or writes a byte, also where the file
 * was emptied when it was opened. Of bytes that were read into memory nobody can tell which file had them. */
bool warc_rewrite(warc_archive *archive, int file, uint64_t *sent, warc_problem *problem);
bool warc_convert(warc_archive *archive, int file, uint64_t *sent, warc_problem *problem);
bool warc_split(warc_archive *archive, uint64_t size, int file, uint64_t *sent, warc_problem *problem);

/* Writes the records that warc_chosen chooses, byte for byte: what is written is an archive. Fails as warc_chosen and
 * as warc_rewrite do. */
bool warc_select(warc_archive *archive, const uint64_t *positions, size_t count, bool except, bool closed, int file,
                 uint64_t *sent, warc_problem *problem);

/* Writes the record of warc_made, and fails as it does. */
bool warc_make(const warc_draft *draft, int file, uint64_t *sent, warc_problem *problem);

#ifdef __cplusplus
}
#endif

#endif
