/* What C calls. It checks pointers and lengths, and calls the proved functions, whose names begin with warc_rt_: these
 * take no null pointer. Nothing here knows the format. */
#define _POSIX_C_SOURCE 200809L

#include "warc.h"

#include <errno.h>
#include <inttypes.h>
#include <signal.h>
#include <stdio.h>
#include <stdlib.h>
#include <string.h>
#include <sys/stat.h>
#include <sys/sysmacros.h>
#include <time.h>
#include <unistd.h>

/* An archive in the form that the proved functions keep it. */
typedef struct {
    void *state;
    bool is_open;
} warc_handle;

/* How long the name and the value of a field are. */
typedef struct {
    uint32_t name_length;
    uint32_t value_length;
} field_lengths;

/* What the proved parser of HTTP heads says, and where a field is, by offsets in the block. */
typedef struct {
    uint64_t body_offset;
    uint64_t reason_offset;
    uint64_t reason_length;
    uint32_t status;
    uint32_t minor;
} http_numbers;

typedef struct {
    uint64_t name_offset;
    uint64_t name_length;
    uint64_t value_offset;
    uint64_t value_length;
} http_field;

/* A Global takes no bytes, so the proved functions get no argument for it. */
uint32_t warc_rt_abi_version(void);
size_t warc_rt_problem_text(const warc_problem *problem, uint8_t *text, size_t text_length);
bool warc_rt_open(warc_handle *handle, const uint8_t *bytes, size_t length, warc_problem *problem);
uint64_t warc_rt_front(const uint8_t *bytes, size_t length, warc_problem *problem);
bool warc_rt_grow(warc_handle *handle, const uint8_t *old, size_t old_length, const uint8_t *bytes, size_t length,
                  warc_problem *problem);
void warc_rt_close(warc_handle *handle);
size_t warc_rt_count(warc_handle *handle);
size_t warc_rt_row(warc_handle *handle, size_t position, warc_row *row, uint8_t *texts, size_t texts_length,
                   warc_problem *problem);
uint32_t warc_rt_verdict(warc_handle *handle, size_t position, warc_problem *problem);
uint32_t warc_rt_stated_verdict(warc_handle *handle, size_t position, warc_problem *problem);
uint32_t warc_rt_payload_verdict(warc_handle *handle, size_t position, warc_problem *problem);
size_t warc_rt_fields(const uint8_t *head, size_t head_length, field_lengths *lengths, size_t lengths_length,
                      uint8_t *texts, size_t texts_length, warc_problem *problem);
size_t warc_rt_http(const uint8_t *block, size_t block_length, http_numbers *http, http_field *fields,
                    size_t fields_length, warc_problem *problem);
size_t warc_rt_captures(warc_handle *handle, const uint8_t *uri, size_t uri_length, uint64_t *positions,
                        size_t positions_length, warc_problem *problem);
size_t warc_rt_replay(warc_handle *handle, const uint8_t *uri, size_t uri_length, const uint8_t *date,
                      size_t date_length, warc_answer *answer, warc_span *spans, size_t spans_length,
                      warc_problem *problem);
size_t warc_rt_body(warc_handle *handle, size_t position, warc_answer *answer, warc_span *spans, size_t spans_length,
                    warc_problem *problem);
size_t warc_rt_list(warc_handle *handle, uint8_t *text, size_t text_length, warc_problem *problem);
size_t warc_rt_check(warc_handle *handle, uint8_t *text, size_t text_length, warc_problem *problem);
size_t warc_rt_fixity(const uint8_t *bytes, size_t length, uint8_t *text, size_t text_length, warc_problem *problem);
size_t warc_rt_pieces(const uint8_t *bytes, size_t length, warc_piece *pieces, size_t pieces_length,
                      warc_problem *problem);
bool warc_rt_next_rewritten(warc_handle *handle, const uint8_t *bytes, size_t length, const warc_cursor *cursor,
                            uint8_t *text, size_t text_length, warc_portion *portion, warc_problem *problem);
bool warc_rt_next_converted(warc_handle *handle, const uint8_t *bytes, size_t length, const warc_cursor *cursor,
                            uint8_t *text, size_t text_length, warc_portion *portion, warc_problem *problem);
bool warc_rt_next_split(warc_handle *handle, const uint8_t *bytes, size_t length, uint64_t size,
                        const warc_cursor *cursor, uint8_t *text, size_t text_length, warc_portion *portion,
                        warc_problem *problem);
bool warc_rt_next_selected(warc_handle *handle, const uint8_t *bytes, size_t length, const uint64_t *positions,
                           size_t count, const warc_cursor *cursor, warc_portion *portion, warc_problem *problem);
size_t warc_rt_chosen(warc_handle *handle, const uint64_t *positions, size_t count, bool except, bool closed,
                      uint64_t *chosen, size_t chosen_length, warc_problem *problem);
bool warc_rt_make(const uint8_t *kind, size_t kind_length, const uint8_t *uri, size_t uri_length, const uint8_t *date,
                  size_t date_length, const uint8_t *uuid, size_t uuid_length, const uint8_t *type, size_t type_length,
                  const uint8_t *block, size_t block_length, uint8_t *text, size_t text_length, warc_portion *portion,
                  warc_problem *problem);

/* No head of a record is longer, and a field takes at least four bytes of it: `a:` and CRLF. */
enum { MOST_TEXTS = 65536, MOST_FIELDS = MOST_TEXTS / 4, MOST_HTTP_FIELDS = 256 };

/* The fields of one record's head, as they were put. */
typedef struct {
    field_lengths lengths[MOST_FIELDS];
    uint8_t texts[MOST_TEXTS];
    size_t position;
    size_t count;
    size_t next;   /* the field that begins at `offset` of the texts */
    size_t offset;
} field_cache;

/* The fields of the HTTP head of one record's block. */
typedef struct {
    http_field fields[MOST_HTTP_FIELDS];
    http_numbers numbers;
    size_t position;
    size_t count;
    const uint8_t *block;
    warc_span span;
} http_cache;

typedef enum { NO_TEXT, LIST, CHECK, FIXITY } text_kind;

struct warc_archive {
    warc_handle handle;
    const uint8_t *bytes;
    size_t length;
    size_t count;
    uint8_t *text;
    size_t text_length;
    text_kind kind;
    field_cache *fields;
    http_cache *http;
};

/* What is in the place of empty bytes and for buffers without room, aligned for any of the structs. */
static _Alignas(16) uint8_t nothing[16];

/* Whether a pointer leads to as many elements as a length says, as far as can be seen. */
static bool fits(const void *pointer, size_t length, size_t element) {
    return length == 0 || (pointer != NULL && length <= PTRDIFF_MAX / element);
}

/* The same pointer, or one that isn't null. */
static const uint8_t *bytes_or_nothing(const uint8_t *pointer) { return pointer ? pointer : nothing; }
static void *room_or_nothing(void *pointer) { return pointer ? pointer : (void *)nothing; }

/* Sets a problem without details. */
static void set(warc_problem *problem, uint32_t code) {
    problem->code = code;
    problem->detail = 0;
    problem->number = 0;
}

/* Begins a call: the problem is none, unless an argument is bad. */
static bool begin(bool are_good, warc_problem *problem) {
    set(problem, are_good ? 0 : WARC_BAD_ARGUMENT);
    return are_good;
}

uint32_t warc_abi_version(void) { return warc_rt_abi_version(); }

size_t warc_problem_text(const warc_problem *problem, char *text, size_t text_length) {
    if (problem == NULL || !fits(text, text_length, 1)) return 0;
    return warc_rt_problem_text(problem, room_or_nothing(text), text_length);
}

/* ---- An archive */

/* Opens an archive over bytes that aren't null. */
static bool open_bytes(warc_archive **archive, const uint8_t *bytes, size_t length, warc_problem *problem) {
    warc_archive *made = calloc(1, sizeof *made);
    if (made == NULL) {
        set(problem, WARC_NO_MEMORY);
        return false;
    }
    if (!warc_rt_open(&made->handle, bytes, length, problem)) {
        free(made);
        return false;
    }
    made->bytes = bytes;
    made->length = length;
    made->count = warc_rt_count(&made->handle);
    *archive = made;
    return true;
}

bool warc_open(warc_archive **archive, const uint8_t *bytes, size_t length, warc_problem *problem) {
    warc_problem none;
    if (problem == NULL) problem = &none;
    if (archive != NULL) *archive = NULL;
    if (!begin(archive != NULL && fits(bytes, length, 1), problem)) return false;
    return open_bytes(archive, bytes_or_nothing(bytes), length, problem);
}

bool warc_open_front(warc_archive **archive, const uint8_t *bytes, size_t length, warc_problem *fault,
                     warc_problem *problem) {
    warc_problem none, unread;
    if (problem == NULL) problem = &none;
    if (fault == NULL) fault = &unread;
    if (archive != NULL) *archive = NULL;
    if (!begin(archive != NULL && fits(bytes, length, 1), problem)) return false;
    set(fault, 0);
    uint64_t end = warc_rt_front(bytes_or_nothing(bytes), length, fault);
    return open_bytes(archive, bytes_or_nothing(bytes), (size_t)end, problem);
}

/* Drops what was computed of the archive's bytes. */
static void drop_computed(warc_archive *archive) {
    free(archive->text);
    free(archive->fields);
    free(archive->http);
    archive->text = NULL;
    archive->kind = NO_TEXT;
    archive->fields = NULL;
    archive->http = NULL;
}

bool warc_grow(warc_archive *archive, const uint8_t *bytes, size_t length, warc_problem *problem) {
    warc_problem none;
    if (problem == NULL) problem = &none;
    if (!begin(archive != NULL && fits(bytes, length, 1), problem)) return false;
    bytes = bytes_or_nothing(bytes);
    if (!warc_rt_grow(&archive->handle, archive->bytes, archive->length, bytes, length, problem)) return false;
    archive->bytes = bytes;
    archive->length = length;
    archive->count = warc_rt_count(&archive->handle);
    drop_computed(archive);
    return true;
}

void warc_close(warc_archive *archive) {
    if (archive == NULL) return;
    drop_computed(archive);
    warc_rt_close(&archive->handle);
    free(archive);
}

size_t warc_count(const warc_archive *archive) { return archive != NULL ? archive->count : 0; }

size_t warc_length(const warc_archive *archive) { return archive != NULL ? archive->length : 0; }

/* ---- Pieces */

size_t warc_pieces(const uint8_t *bytes, size_t length, warc_piece *pieces, size_t pieces_length,
                   warc_problem *problem) {
    warc_problem none;
    if (problem == NULL) problem = &none;
    if (!begin(fits(bytes, length, 1) && fits(pieces, pieces_length, sizeof *pieces), problem)) return 0;
    return warc_rt_pieces(bytes_or_nothing(bytes), length, room_or_nothing(pieces), pieces_length, problem);
}

/* ---- Records */

size_t warc_row_at(warc_archive *archive, size_t position, warc_row *row, uint8_t *texts, size_t texts_length,
                   warc_problem *problem) {
    warc_problem none;
    warc_row unread;
    if (problem == NULL) problem = &none;
    if (!begin(archive != NULL && fits(texts, texts_length, 1), problem)) return 0;
    return warc_rt_row(&archive->handle, position, row != NULL ? row : &unread, room_or_nothing(texts), texts_length,
                       problem);
}

/* Puts a line feed after each of the texts of a row, which are one after another. Answers where the lines end. */
static uint8_t *put_row_lines(const warc_row *row, uint8_t *text) {
    const size_t lengths[] = {row->target_length, row->id_length, row->date_length, row->type_length};
    uint8_t *from = text + row->type_length + row->date_length + row->id_length + row->target_length;
    uint8_t *end = from + 4, *to = end;
    for (size_t i = 0; i < 4; i++) {
        *--to = '\n';
        to -= lengths[i];
        from -= lengths[i];
        memmove(to, from, lengths[i]);
    }
    return end;
}

size_t warc_rows(warc_archive *archive, size_t position, warc_row *rows, size_t rows_length, uint8_t *text,
                 size_t text_length, warc_problem *problem) {
    warc_problem none;
    if (problem == NULL) problem = &none;
    bool are_good = archive != NULL && fits(rows, rows_length, sizeof *rows) && fits(text, text_length, 1);
    if (!begin(are_good, problem)) return 0;
    uint8_t *at = room_or_nothing(text);
    const uint8_t *end = at + text_length;
    size_t put = 0;
    for (; put < rows_length && position < archive->count; put++, position++) {
        size_t room = (size_t)(end - at);
        size_t length = warc_rt_row(&archive->handle, position, &rows[put], at, room, problem);
        if (problem->code != 0 || length + 4 > room) break;
        at = put_row_lines(&rows[put], at);
    }
    if (put != 0) set(problem, 0);
    return put;
}

/* The row of a record, without its texts. */
static bool read_row(warc_archive *archive, size_t position, warc_row *row, warc_problem *problem) {
    warc_row_at(archive, position, row, NULL, 0, problem);
    return problem->code == 0;
}

bool warc_head_at(warc_archive *archive, size_t position, warc_span *span, warc_problem *problem) {
    warc_problem none;
    warc_row row;
    if (problem == NULL) problem = &none;
    if (!begin(span != NULL, problem) || !read_row(archive, position, &row, problem)) return false;
    span->offset = row.offset;
    span->length = row.block_offset - row.offset;
    return true;
}

bool warc_block_at(warc_archive *archive, size_t position, warc_span *span, warc_problem *problem) {
    warc_problem none;
    warc_row row;
    if (problem == NULL) problem = &none;
    if (!begin(span != NULL, problem) || !read_row(archive, position, &row, problem)) return false;
    span->offset = row.block_offset;
    span->length = row.block_length;
    return true;
}

uint32_t warc_verdict_at(warc_archive *archive, size_t position, warc_problem *problem) {
    warc_problem none;
    if (problem == NULL) problem = &none;
    if (!begin(archive != NULL, problem)) return WARC_UNCHECKED;
    return warc_rt_verdict(&archive->handle, position, problem);
}

uint32_t warc_stated_verdict_at(warc_archive *archive, size_t position, warc_problem *problem) {
    warc_problem none;
    if (problem == NULL) problem = &none;
    if (!begin(archive != NULL, problem)) return WARC_UNCHECKED;
    return warc_rt_stated_verdict(&archive->handle, position, problem);
}

uint32_t warc_payload_verdict_at(warc_archive *archive, size_t position, warc_problem *problem) {
    warc_problem none;
    if (problem == NULL) problem = &none;
    if (!begin(archive != NULL, problem)) return WARC_PAYLOAD_NONE;
    return warc_rt_payload_verdict(&archive->handle, position, problem);
}

/* ---- Fields */

/* Memory that is kept until the archive grows or is closed. */
static bool make_room(void **room, size_t size, warc_problem *problem) {
    if (*room == NULL) *room = calloc(1, size);
    if (*room == NULL) set(problem, WARC_NO_MEMORY);
    return *room != NULL;
}

/* Puts the fields of a record's head, unless they are those that were put last. */
static bool read_fields(warc_archive *archive, size_t position, warc_problem *problem) {
    warc_span head;
    field_cache *kept = archive->fields;
    if (kept != NULL && kept->count != 0 && kept->position == position) return true;
    if (!warc_head_at(archive, position, &head, problem)) return false;
    if (!make_room((void **)&archive->fields, sizeof *archive->fields, problem)) return false;
    kept = archive->fields;
    kept->position = position;
    kept->next = 0;
    kept->offset = 0;
    kept->count = warc_rt_fields(archive->bytes + head.offset, (size_t)head.length, kept->lengths, MOST_FIELDS,
                                 kept->texts, MOST_TEXTS, problem);
    return problem->code == 0;
}

/* Moves to a field: forward from the last one, and else from the first. */
static bool find_field(field_cache *kept, size_t place) {
    if (place < kept->next) {
        kept->next = 0;
        kept->offset = 0;
    }
    while (kept->next < place) {
        const field_lengths *passed = &kept->lengths[kept->next++];
        kept->offset += (size_t)passed->name_length + passed->value_length;
    }
    const field_lengths *found = &kept->lengths[place];
    return kept->offset + found->name_length + found->value_length <= MOST_TEXTS;
}

bool warc_field_at(warc_archive *archive, size_t position, size_t place, warc_field *field, warc_problem *problem) {
    warc_problem none;
    if (problem == NULL) problem = &none;
    if (!begin(archive != NULL && field != NULL, problem)) return false;
    if (!read_fields(archive, position, problem)) return false;
    field_cache *kept = archive->fields;
    if (place >= kept->count || place >= MOST_FIELDS || !find_field(kept, place)) return false;
    field->name = kept->texts + kept->offset;
    field->name_length = kept->lengths[place].name_length;
    field->value = field->name + field->name_length;
    field->value_length = kept->lengths[place].value_length;
    return true;
}

/* Copies a text and puts a line feed after it. Answers where that ends. */
static uint8_t *put_line(const uint8_t *text, size_t length, uint8_t *out) {
    memcpy(out, text, length);
    out[length] = '\n';
    return out + length + 1;
}

/* Copies the lines of the fields that are kept. Answers where they end; null if there is no room for all. */
static uint8_t *put_field_lines(const field_cache *kept, uint8_t *out, const uint8_t *end) {
    const uint8_t *text = kept->texts;
    if (kept->count > MOST_FIELDS) return NULL;
    for (size_t place = 0; place < kept->count; place++) {
        const size_t lengths[] = {kept->lengths[place].name_length, kept->lengths[place].value_length};
        if (lengths[0] + lengths[1] > (size_t)(kept->texts + MOST_TEXTS - text)) return NULL;
        if (lengths[0] + lengths[1] + 2 > (size_t)(end - out)) return NULL;
        for (size_t i = 0; i < 2; text += lengths[i++]) out = put_line(text, lengths[i], out);
    }
    return out;
}

size_t warc_fields(warc_archive *archive, size_t position, warc_lines *lines, size_t lines_length, uint8_t *text,
                   size_t text_length, warc_problem *problem) {
    warc_problem none;
    if (problem == NULL) problem = &none;
    bool are_good = archive != NULL && fits(lines, lines_length, sizeof *lines) && fits(text, text_length, 1);
    if (!begin(are_good, problem)) return 0;
    uint8_t *at = room_or_nothing(text);
    const uint8_t *end = at + text_length;
    size_t put = 0;
    for (; put < lines_length && position < archive->count; put++, position++) {
        if (!read_fields(archive, position, problem)) break;
        uint8_t *next = put_field_lines(archive->fields, at, end);
        if (next == NULL) break;
        lines[put].fields = (uint32_t)archive->fields->count;
        lines[put].length = (uint32_t)(next - at);
        at = next;
    }
    if (put != 0) set(problem, 0);
    return put;
}

/* Parses the HTTP head of a record's block, unless it is the one that was parsed last. */
static bool read_http(warc_archive *archive, size_t position, warc_problem *problem) {
    warc_span block;
    http_cache *kept = archive->http;
    if (kept != NULL && kept->block != NULL && kept->position == position) return true;
    if (!warc_block_at(archive, position, &block, problem)) return false;
    if (!make_room((void **)&archive->http, sizeof *archive->http, problem)) return false;
    kept = archive->http;
    kept->block = NULL;
    kept->position = position;
    kept->span = block;
    kept->count = warc_rt_http(archive->bytes + block.offset, (size_t)block.length, &kept->numbers, kept->fields,
                               MOST_HTTP_FIELDS, problem);
    if (problem->code == 0) kept->block = archive->bytes + block.offset;
    return problem->code == 0;
}

bool warc_http_at(warc_archive *archive, size_t position, warc_http *http, warc_problem *problem) {
    warc_problem none;
    if (problem == NULL) problem = &none;
    if (!begin(archive != NULL && http != NULL, problem)) return false;
    if (!read_http(archive, position, problem)) return false;
    const http_cache *kept = archive->http;
    http->status = kept->numbers.status;
    http->minor = kept->numbers.minor;
    http->reason = kept->block + kept->numbers.reason_offset;
    http->reason_length = (size_t)kept->numbers.reason_length;
    http->fields = kept->count;
    http->body.offset = kept->span.offset + kept->numbers.body_offset;
    http->body.length = kept->span.length - kept->numbers.body_offset;
    return true;
}

bool warc_http_field_at(warc_archive *archive, size_t position, size_t place, warc_field *field,
                        warc_problem *problem) {
    warc_problem none;
    if (problem == NULL) problem = &none;
    if (!begin(archive != NULL && field != NULL, problem)) return false;
    if (!read_http(archive, position, problem)) return false;
    const http_cache *kept = archive->http;
    if (place >= kept->count || place >= MOST_HTTP_FIELDS) return false;
    field->name = kept->block + kept->fields[place].name_offset;
    field->name_length = (size_t)kept->fields[place].name_length;
    field->value = kept->block + kept->fields[place].value_offset;
    field->value_length = (size_t)kept->fields[place].value_length;
    return true;
}

/* ---- Bodies */

size_t warc_captures(warc_archive *archive, const uint8_t *uri, size_t uri_length, uint64_t *positions,
                     size_t positions_length, warc_problem *problem) {
    warc_problem none;
    if (problem == NULL) problem = &none;
    bool are_good = archive != NULL && fits(uri, uri_length, 1) && fits(positions, positions_length, sizeof *positions);
    if (!begin(are_good, problem)) return 0;
    return warc_rt_captures(&archive->handle, bytes_or_nothing(uri), uri_length, room_or_nothing(positions),
                            positions_length, problem);
}

size_t warc_replay(warc_archive *archive, const uint8_t *uri, size_t uri_length, const uint8_t *date,
                   size_t date_length, warc_answer *answer, warc_span *spans, size_t spans_length,
                   warc_problem *problem) {
    warc_problem none;
    warc_answer unread;
    if (problem == NULL) problem = &none;
    bool are_good = archive != NULL && fits(uri, uri_length, 1) && fits(date, date_length, 1)
        && fits(spans, spans_length, sizeof *spans);
    if (!begin(are_good, problem)) return 0;
    return warc_rt_replay(&archive->handle, bytes_or_nothing(uri), uri_length, bytes_or_nothing(date), date_length,
                          answer != NULL ? answer : &unread, room_or_nothing(spans), spans_length, problem);
}

size_t warc_body_at(warc_archive *archive, size_t position, warc_answer *answer, warc_span *spans,
                    size_t spans_length, warc_problem *problem) {
    warc_problem none;
    warc_answer unread;
    if (problem == NULL) problem = &none;
    if (!begin(archive != NULL && fits(spans, spans_length, sizeof *spans), problem)) return 0;
    return warc_rt_body(&archive->handle, position, answer != NULL ? answer : &unread, room_or_nothing(spans),
                        spans_length, problem);
}

/* ---- Texts of the whole archive */

/* Asks the proved function for a text. */
static size_t compute(warc_archive *archive, text_kind kind, uint8_t *text, size_t length, warc_problem *problem) {
    if (kind == LIST) return warc_rt_list(&archive->handle, text, length, problem);
    if (kind == CHECK) return warc_rt_check(&archive->handle, text, length, problem);
    return warc_rt_fixity(archive->bytes, archive->length, text, length, problem);
}

/* Computes a text and keeps it. One that is longer than the first room is computed again, into as much as it takes. */
static bool keep_text(warc_archive *archive, text_kind kind, warc_problem *problem) {
    size_t room = 1 << 20;
    free(archive->text);
    archive->kind = NO_TEXT;
    for (int tries = 0; tries < 2; tries++) {
        archive->text = malloc(room);
        if (archive->text == NULL) break;
        archive->text_length = compute(archive, kind, archive->text, room, problem);
        if (problem->code != 0) return false;
        if (archive->text_length <= room) {
            archive->kind = kind;
            return true;
        }
        room = archive->text_length;
        free(archive->text);
        archive->text = NULL;
    }
    set(problem, WARC_NO_MEMORY);
    return false;
}

/* The text that is kept, or that is computed now. */
static size_t put_text(warc_archive *archive, text_kind kind, uint8_t *text, size_t length, warc_problem *problem) {
    warc_problem none;
    if (problem == NULL) problem = &none;
    if (!begin(archive != NULL && fits(text, length, 1), problem)) return 0;
    if (archive->kind != kind && !keep_text(archive, kind, problem)) return 0;
    size_t count = archive->text_length < length ? archive->text_length : length;
    if (count != 0) memcpy(text, archive->text, count);
    return archive->text_length;
}

size_t warc_list(warc_archive *archive, uint8_t *text, size_t text_length, warc_problem *problem) {
    return put_text(archive, LIST, text, text_length, problem);
}

size_t warc_check(warc_archive *archive, uint8_t *text, size_t text_length, warc_problem *problem) {
    return put_text(archive, CHECK, text, text_length, problem);
}

size_t warc_fixity(warc_archive *archive, uint8_t *text, size_t text_length, warc_problem *problem) {
    return put_text(archive, FIXITY, text, text_length, problem);
}

/* ---- Writing, portion by portion */

/* Whether the arguments are good that each call for a portion has. */
static bool are_for_portion(const warc_cursor *cursor, const warc_portion *portion, const uint8_t *text,
                            size_t text_length) {
    return cursor != NULL && portion != NULL && fits(text, text_length, 1);
}

bool warc_next_rewritten(warc_archive *archive, const warc_cursor *cursor, warc_portion *portion, uint8_t *text,
                         size_t text_length, warc_problem *problem) {
    warc_problem none;
    if (problem == NULL) problem = &none;
    if (!begin(archive != NULL && are_for_portion(cursor, portion, text, text_length), problem)) return false;
    const warc_cursor at = *cursor;
    return warc_rt_next_rewritten(&archive->handle, archive->bytes, archive->length, &at, room_or_nothing(text),
                                  text_length, portion, problem);
}

bool warc_next_converted(warc_archive *archive, const warc_cursor *cursor, warc_portion *portion, uint8_t *text,
                         size_t text_length, warc_problem *problem) {
    warc_problem none;
    if (problem == NULL) problem = &none;
    if (!begin(archive != NULL && are_for_portion(cursor, portion, text, text_length), problem)) return false;
    const warc_cursor at = *cursor;
    return warc_rt_next_converted(&archive->handle, archive->bytes, archive->length, &at, room_or_nothing(text),
                                  text_length, portion, problem);
}

bool warc_next_split(warc_archive *archive, uint64_t size, const warc_cursor *cursor, warc_portion *portion,
                     uint8_t *text, size_t text_length, warc_problem *problem) {
    warc_problem none;
    if (problem == NULL) problem = &none;
    bool are_good = archive != NULL && size != 0 && are_for_portion(cursor, portion, text, text_length);
    if (!begin(are_good, problem)) return false;
    const warc_cursor at = *cursor;
    return warc_rt_next_split(&archive->handle, archive->bytes, archive->length, size, &at, room_or_nothing(text),
                              text_length, portion, problem);
}

/* Positions that are passed, or as many as none. */
static const uint64_t *positions_or_nothing(const uint64_t *positions) {
    return positions != NULL ? positions : (const void *)nothing;
}

bool warc_next_selected(warc_archive *archive, const uint64_t *positions, size_t count, const warc_cursor *cursor,
                        warc_portion *portion, warc_problem *problem) {
    warc_problem none;
    if (problem == NULL) problem = &none;
    bool are_good = archive != NULL && fits(positions, count, sizeof *positions)
        && are_for_portion(cursor, portion, NULL, 0);
    if (!begin(are_good, problem)) return false;
    const warc_cursor at = *cursor;
    return warc_rt_next_selected(&archive->handle, archive->bytes, archive->length, positions_or_nothing(positions),
                                 count, &at, portion, problem);
}

size_t warc_chosen(warc_archive *archive, const uint64_t *positions, size_t count, bool except, bool closed,
                   uint64_t *chosen, size_t chosen_length, warc_problem *problem) {
    warc_problem none;
    if (problem == NULL) problem = &none;
    bool are_good = archive != NULL && fits(positions, count, sizeof *positions)
        && fits(chosen, chosen_length, sizeof *chosen);
    if (!begin(are_good, problem)) return 0;
    return warc_rt_chosen(&archive->handle, positions_or_nothing(positions), count, except, closed,
                          room_or_nothing(chosen), chosen_length, problem);
}

/* Whether passed bytes are there. */
static bool are_there(const warc_bytes *passed) { return fits(passed->bytes, passed->length, 1); }

/* Whether all that a record is made of is there. */
static bool is_there(const warc_draft *draft) {
    return draft != NULL && are_there(&draft->kind) && are_there(&draft->uri) && are_there(&draft->date)
        && are_there(&draft->uuid) && are_there(&draft->type) && are_there(&draft->block);
}

bool warc_made(const warc_draft *draft, warc_portion *portion, uint8_t *text, size_t text_length,
               warc_problem *problem) {
    warc_problem none;
    if (problem == NULL) problem = &none;
    if (!begin(is_there(draft) && portion != NULL && fits(text, text_length, 1), problem)) return false;
    return warc_rt_make(bytes_or_nothing(draft->kind.bytes), draft->kind.length, bytes_or_nothing(draft->uri.bytes),
                        draft->uri.length, bytes_or_nothing(draft->date.bytes), draft->date.length,
                        bytes_or_nothing(draft->uuid.bytes), draft->uuid.length, bytes_or_nothing(draft->type.bytes),
                        draft->type.length, bytes_or_nothing(draft->block.bytes), draft->block.length,
                        room_or_nothing(text), text_length, portion, problem);
}

/* ---- Writing to a descriptor */

/* What is written: an archive in a form, some of its records, or one record. */
typedef struct {
    enum { REWRITTEN, CONVERTED, SPLIT, SELECTED, MADE } form;
    warc_archive *archive;
    uint64_t size;
    const uint64_t *positions;
    size_t count;
    const warc_draft *draft;
} output;

/* The bytes that the spans of an output are of. */
static const uint8_t *spanned(const output *what) {
    return what->form == MADE ? bytes_or_nothing(what->draft->block.bytes) : what->archive->bytes;
}

/* The next portion of an output. False with a problem, or where nothing is left. */
static bool next_portion(const output *what, const warc_cursor *cursor, warc_portion *portion, uint8_t *text,
                         size_t room, warc_problem *problem) {
    switch (what->form) {
    case REWRITTEN: return warc_next_rewritten(what->archive, cursor, portion, text, room, problem);
    case CONVERTED: return warc_next_converted(what->archive, cursor, portion, text, room, problem);
    case SPLIT: return warc_next_split(what->archive, what->size, cursor, portion, text, room, problem);
    case SELECTED: return warc_next_selected(what->archive, what->positions, what->count, cursor, portion, problem);
    default: return cursor->place == 0 && warc_made(what->draft, portion, text, room, problem);
    }
}

/* Writes to a descriptor, and lets no SIGPIPE reach the process. */
static ssize_t write_quietly(int file, const uint8_t *bytes, size_t length) {
    const struct timespec at_once = {0, 0};
    sigset_t pipe, old, pending;
    sigemptyset(&pipe);
    sigaddset(&pipe, SIGPIPE);
    sigpending(&pending);
    pthread_sigmask(SIG_BLOCK, &pipe, &old);
    ssize_t taken = write(file, bytes, length);
    if (taken < 0 && errno == EPIPE && sigismember(&pending, SIGPIPE) == 0) sigtimedwait(&pipe, NULL, &at_once);
    pthread_sigmask(SIG_SETMASK, &old, NULL);
    return taken;
}

/* Whether a line of /proc/self/maps is of the mapping that an address is in, and that of a given file. Some file
 * systems show other numbers there than stat gives: then the path decides. */
static bool maps_file(const char *line, const void *address, const struct stat *file) {
    uintptr_t begin, end;
    unsigned major, minor;
    uintmax_t number;
    int path = 0;
    struct stat mapped;
    if (sscanf(line, "%" SCNxPTR "-%" SCNxPTR " %*s %*s %x:%x %" SCNuMAX " %n", &begin, &end, &major, &minor, &number,
               &path) != 5) return false;
    if ((uintptr_t)address < begin || (uintptr_t)address >= end || number == 0) return false;
    if (number == file->st_ino && makedev(major, minor) == file->st_dev) return true;
    return stat(line + path, &mapped) == 0 && mapped.st_ino == file->st_ino && mapped.st_dev == file->st_dev;
}

/* Whether bytes are mapped from the regular file that a descriptor writes to, as far as /proc/self/maps says. */
static bool are_of_file(const uint8_t *bytes, size_t length, int descriptor) {
    struct stat file;
    if (length == 0 || fstat(descriptor, &file) != 0 || !S_ISREG(file.st_mode)) return false;
    FILE *maps = fopen("/proc/self/maps", "re");
    if (maps == NULL) return false;
    char *line = NULL;
    size_t room = 0;
    bool found = false;
    for (ssize_t count; !found && (count = getline(&line, &room, maps)) > 0;) {
        if (line[count - 1] == '\n') line[count - 1] = '\0';
        found = maps_file(line, bytes, &file);
    }
    free(line);
    fclose(maps);
    return found;
}

/* How many bytes are held back, so that short pieces go out together, and how much room there is at first for a text.
 * Most heads are shorter. */
enum { HELD = 1 << 17, FIRST_TEXT = 1 << 14 };

/* A descriptor that is written to, bytes that are held back, and bytes after these that are elsewhere in memory. */
typedef struct {
    int file;
    uint8_t *held;
    size_t count;
    const uint8_t *span;
    size_t span_length;
    uint64_t *sent;
} sink;

/* Writes bytes. A write that fails or takes nothing isn't tried again. */
static bool send_bytes(sink *to, const uint8_t *bytes, size_t length) {
    while (length > 0) {
        ssize_t taken = write_quietly(to->file, bytes, length);
        if (taken <= 0) return false;
        *to->sent += (uint64_t)taken;
        bytes += taken;
        length -= (size_t)taken;
    }
    return true;
}

/* Writes what is held back. */
static bool send_held(sink *to) {
    size_t count = to->count;
    to->count = 0;
    return send_bytes(to, to->held, count);
}

/* Holds bytes back, or writes them after those that are held. */
static bool put(sink *to, const uint8_t *bytes, size_t length) {
    if (length > HELD - to->count && !send_held(to)) return false;
    if (length > HELD) return send_bytes(to, bytes, length);
    if (length > 0) memcpy(to->held + to->count, bytes, length);
    to->count += length;
    return true;
}

/* Puts the bytes that are elsewhere. */
static bool put_last_span(sink *to) {
    size_t length = to->span_length;
    to->span_length = 0;
    return put(to, to->span, length);
}

/* Puts bytes that stay where they are until the output ends. Spans that follow one another go out as one. */
static bool put_span(sink *to, const uint8_t *bytes, size_t length) {
    if (to->span_length > 0 && to->span + to->span_length == bytes) {
        to->span_length += length;
        return true;
    }
    if (!put_last_span(to)) return false;
    to->span = bytes;
    to->span_length = length;
    return true;
}

/* Puts bytes that don't stay. */
static bool put_bytes(sink *to, const uint8_t *bytes, size_t length) {
    return length == 0 || (put_last_span(to) && put(to, bytes, length));
}

/* Puts a portion. */
static bool put_portion(sink *to, const output *what, const warc_portion *portion, const uint8_t *text) {
    return put_bytes(to, text, (size_t)portion->before)
        && put_span(to, spanned(what) + portion->span.offset, (size_t)portion->span.length)
        && put_bytes(to, text + portion->before, (size_t)portion->after);
}

/* Writes all that was put. */
static bool end_output(sink *to) { return put_last_span(to) && send_held(to); }

/* Makes room for a longer text. */
static bool enlarge(uint8_t **text, size_t *room, uint64_t length, warc_problem *problem) {
    uint8_t *larger = length <= PTRDIFF_MAX ? realloc(*text, (size_t)length) : NULL;
    if (larger == NULL) {
        set(problem, WARC_NO_MEMORY);
        return false;
    }
    *text = larger;
    *room = (size_t)length;
    return true;
}

/* Puts all portions of an output, each made once. False with a problem. */
static bool put_portions(sink *to, const output *what, uint8_t **text, warc_problem *problem) {
    size_t room = FIRST_TEXT;
    warc_portion portion;
    for (warc_cursor cursor = {0}; next_portion(what, &cursor, &portion, *text, room, problem);) {
        if (portion.before + portion.after > room) {
            if (!enlarge(text, &room, 2 * (portion.before + portion.after), problem)) return false;
            continue;
        }
        if (!put_portion(to, what, &portion, *text)) {
            set(problem, WARC_WRITE_FAILED);
            return false;
        }
        cursor = portion.next;
    }
    return problem->code == 0;
}

/* Writes an output whose arguments are good. What comes before a problem goes out. */
static bool write_portions(const output *what, int file, uint8_t *held, uint8_t **text, uint64_t *sent,
                           warc_problem *problem) {
    sink to = {.file = file, .held = held, .sent = sent};
    bool is_done = put_portions(&to, what, text, problem);
    if (problem->code != WARC_WRITE_FAILED && !end_output(&to)) {
        set(problem, WARC_WRITE_FAILED);
        return false;
    }
    return is_done;
}

/* Writes an output to a descriptor. `*sent` is 0 where all is written. */
static bool write_output(const output *what, int file, uint64_t *sent, warc_problem *problem) {
    uint8_t *held = malloc(HELD), *text = malloc(FIRST_TEXT);
    bool is_done = false;
    if (file < 0) {
        set(problem, WARC_WRITE_FAILED);
    } else if (held == NULL || text == NULL) {
        set(problem, WARC_NO_MEMORY);
    } else {
        is_done = write_portions(what, file, held, &text, sent, problem);
    }
    free(held);
    free(text);
    if (is_done) *sent = 0;
    return is_done;
}

/* Whether an archive may be written to a descriptor: its bytes aren't those of the file there. */
static bool may_write(const warc_archive *archive, int file) {
    return archive != NULL && !are_of_file(archive->bytes, archive->length, file);
}

/* Writes an output of an archive: nothing is sent if an argument is bad. */
static bool write_archive(bool are_good, const output *what, int file, uint64_t *sent, warc_problem *problem) {
    warc_problem none;
    uint64_t unread;
    if (problem == NULL) problem = &none;
    if (sent == NULL) sent = &unread;
    *sent = 0;
    return begin(are_good && may_write(what->archive, file), problem) && write_output(what, file, sent, problem);
}

bool warc_rewrite(warc_archive *archive, int file, uint64_t *sent, warc_problem *problem) {
    output what = {.form = REWRITTEN, .archive = archive};
    return write_archive(true, &what, file, sent, problem);
}

bool warc_convert(warc_archive *archive, int file, uint64_t *sent, warc_problem *problem) {
    output what = {.form = CONVERTED, .archive = archive};
    return write_archive(true, &what, file, sent, problem);
}

bool warc_split(warc_archive *archive, uint64_t size, int file, uint64_t *sent, warc_problem *problem) {
    output what = {.form = SPLIT, .archive = archive, .size = size};
    return write_archive(size != 0, &what, file, sent, problem);
}

/* The positions that a selection writes, in memory of their own; null with a problem. No record is chosen twice. */
static uint64_t *choose(warc_archive *archive, const uint64_t *positions, size_t count, bool except, bool closed,
                        size_t *chosen_length, warc_problem *problem) {
    size_t room = archive->count;
    uint64_t *chosen = malloc(room > 0 ? room * sizeof *chosen : 1);
    if (chosen == NULL) {
        set(problem, WARC_NO_MEMORY);
        return NULL;
    }
    *chosen_length = warc_chosen(archive, positions, count, except, closed, chosen, room, problem);
    if (problem->code == 0) return chosen;
    free(chosen);
    return NULL;
}

bool warc_select(warc_archive *archive, const uint64_t *positions, size_t count, bool except, bool closed, int file,
                 uint64_t *sent, warc_problem *problem) {
    warc_problem none;
    uint64_t unread;
    if (problem == NULL) problem = &none;
    if (sent == NULL) sent = &unread;
    *sent = 0;
    if (!begin(may_write(archive, file) && fits(positions, count, sizeof *positions), problem)) return false;
    output what = {.form = SELECTED, .archive = archive, .count = 0};
    uint64_t *chosen = choose(archive, positions, count, except, closed, &what.count, problem);
    what.positions = chosen;
    bool is_done = chosen != NULL && write_output(&what, file, sent, problem);
    free(chosen);
    return is_done;
}

/* Writes a record whose block is mapped from the file that is written to: the block is copied before. */
static bool write_copied(const warc_draft *draft, int file, uint64_t *sent, warc_problem *problem) {
    uint8_t *block = malloc(draft->block.length);
    if (block == NULL) {
        set(problem, WARC_NO_MEMORY);
        return false;
    }
    memcpy(block, draft->block.bytes, draft->block.length);
    warc_draft copied = *draft;
    copied.block.bytes = block;
    output what = {.form = MADE, .draft = &copied};
    bool is_done = write_output(&what, file, sent, problem);
    free(block);
    return is_done;
}

bool warc_make(const warc_draft *draft, int file, uint64_t *sent, warc_problem *problem) {
    warc_problem none;
    uint64_t unread;
    if (problem == NULL) problem = &none;
    if (sent == NULL) sent = &unread;
    *sent = 0;
    if (!begin(is_there(draft), problem)) return false;
    if (are_of_file(draft->block.bytes, draft->block.length, file)) return write_copied(draft, file, sent, problem);
    output what = {.form = MADE, .draft = draft};
    return write_output(&what, file, sent, problem);
}
