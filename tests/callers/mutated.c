/* mutated COUNT SEED ARCHIVE..: asks COUNT changed archives everything that warc.h has, for valgrind to watch.
 *
 * Each is made of one of the archives by a few random changes, in memory of exactly its length. Its pieces are found,
 * and archives are opened, grown, opened as far as they are good, written anew and closed. Prints how many opened. */
#define _POSIX_C_SOURCE 200809L

#include <fcntl.h>
#include <stdio.h>
#include <stdlib.h>
#include <string.h>
#include <unistd.h>

#include "warc.h"

enum { MOST_ARCHIVES = 4096, ROOM = 70000 };

typedef struct {
    uint8_t *bytes;
    size_t length;
} text;

/* What is read of bodies, so that it is read. */
volatile uint8_t seen;

static text archives[MOST_ARCHIVES];
static size_t archive_count;
static uint64_t state;

static uint64_t next_random(void) {
    state ^= state << 13;
    state ^= state >> 7;
    state ^= state << 17;
    return state;
}

static size_t below(size_t limit) { return limit ? (size_t)(next_random() % limit) : 0; }

static void read_file(const char *path) {
    FILE *file = fopen(path, "rb");
    text *it = &archives[archive_count++];
    if (file == NULL || fseek(file, 0, SEEK_END)) exit(9);
    it->length = (size_t)ftell(file);
    it->bytes = malloc(it->length + 1);
    rewind(file);
    if (it->bytes == NULL || fread(it->bytes, 1, it->length, file) != it->length) exit(9);
    fclose(file);
}

/* One change: a byte is set, a piece goes, or a piece comes twice. */
static void change(text *it) {
    size_t at = below(it->length), size = below(it->length - at < 40 ? it->length - at : 40);
    switch (below(4)) {
    case 0:
        if (it->length) it->bytes[at] = (uint8_t)next_random();
        break;
    case 1:
        if (it->length) it->bytes[at] = (uint8_t)("\r\n \t0:<>"[below(8)]);
        break;
    case 2:
        memmove(it->bytes + at, it->bytes + at + size, it->length - at - size);
        it->length -= size;
        break;
    default:
        memmove(it->bytes + at + size, it->bytes + at, it->length - at);
        it->length += size;
    }
}

/* A changed archive, in memory of exactly its length. */
static text changed(void) {
    text from = archives[below(archive_count)], work, exact;
    size_t changes = below(4);
    work.bytes = malloc(from.length + 4 * 40 + 1);
    work.length = from.length;
    if (work.bytes == NULL) exit(9);
    memcpy(work.bytes, from.bytes, from.length);
    while (changes--) change(&work);
    exact.length = work.length;
    exact.bytes = malloc(exact.length ? exact.length : 1);
    if (exact.bytes == NULL) exit(9);
    memcpy(exact.bytes, work.bytes, work.length);
    free(work.bytes);
    return exact;
}

/* Reads a field, so that it is read. */
static void read_field(const warc_field *field) {
    for (size_t at = 0; at < field->name_length; at++) seen = field->name[at];
    for (size_t at = 0; at < field->value_length; at++) seen = field->value[at];
}

static void ask_heads(warc_archive *archive, size_t position, const text *of) {
    warc_problem problem;
    warc_field field;
    warc_http http;
    size_t count = 0;
    while (warc_field_at(archive, position, count, &field, &problem)) {
        read_field(&field);
        count++;
    }
    if (problem.code || count < 4) abort();
    if (!warc_field_at(archive, position, below(count), &field, NULL)) abort();
    read_field(&field);
    if (!warc_http_at(archive, position, &http, &problem)) {
        if (problem.code != WARC_BAD_HEAD) abort();
        return;
    }
    if (http.body.offset + http.body.length > of->length || http.fields > 256) abort();
    for (size_t place = 0; place <= http.fields; place++) {
        if (warc_http_field_at(archive, position, place, &field, &problem) != (place < http.fields)) abort();
        if (place < http.fields) read_field(&field);
    }
}

/* Whether a call answers that a position has no record, and this number. */
static bool is_no_record(uint32_t answer, uint32_t number, const warc_problem *problem) {
    return answer == number && problem->code == WARC_NO_RECORD;
}

/* The verdicts on a record. One by SHA-1 in base32 that is good or bad is the same by any digest. */
static void ask_verdicts(warc_archive *archive, size_t position) {
    warc_problem problem;
    uint32_t sha1_alone = warc_verdict_at(archive, position, &problem);
    if (sha1_alone > WARC_UNCHECKED || problem.code) abort();
    uint32_t any = warc_stated_verdict_at(archive, position, &problem);
    if (any > WARC_UNCHECKED || problem.code || (sha1_alone != WARC_UNCHECKED && any != sha1_alone)) abort();
    if (warc_payload_verdict_at(archive, position, &problem) > WARC_PAYLOAD_CODED || problem.code) abort();
}

static void ask_record(warc_archive *archive, size_t position, const text *of) {
    static uint8_t texts[65536];
    warc_problem problem;
    warc_answer answer;
    warc_span spans[8], span;
    warc_row row;
    uint64_t positions[4];
    warc_row_at(archive, position, &row, texts, sizeof texts, &problem);
    if (problem.code) abort();
    ask_verdicts(archive, position);
    if (!warc_head_at(archive, position, &span, &problem) || span.offset + span.length > of->length) abort();
    if (!warc_block_at(archive, position, &span, &problem) || span.offset + span.length > of->length) abort();
    const uint8_t *date = texts + row.type_length, *uri = date + row.date_length + row.id_length;
    warc_captures(archive, uri, row.target_length, positions, 4, &problem);
    warc_replay(archive, uri, row.target_length, date, row.date_length, NULL, NULL, 0, &problem);
    size_t count = warc_body_at(archive, position, &answer, spans, 8, &problem);
    uint64_t sum = 0;
    for (size_t i = 0; i < count && i < 8; i++) {
        if (spans[i].offset + spans[i].length > of->length) abort();
        for (uint64_t at = 0; at < spans[i].length; at += 4096) seen = of->bytes[spans[i].offset + at];
        sum += spans[i].length;
    }
    if (count && count <= 8 && sum != answer.length) abort();
    ask_heads(archive, position, of);
}

/* Whether a line is a text and a line feed. Moves to the next line. */
static bool is_line(const uint8_t **at, const uint8_t *bytes, size_t length) {
    bool is = memcmp(*at, bytes, length) == 0 && (*at)[length] == '\n';
    *at += length + 1;
    return is;
}

/* The rows of many records are those of each, in room for some of them. The last of them needs all the room that is
 * filled. */
static void ask_rows(warc_archive *archive, size_t first) {
    static uint8_t out[98304], texts[65536];
    warc_row rows[8], row;
    warc_problem problem;
    uint8_t *exact = out + below(sizeof out);
    size_t count = warc_rows(archive, first, rows, below(9), exact, (size_t)(out + sizeof out - exact), &problem);
    if (problem.code || count > 8 || (count != 0 && first + count > warc_count(archive))) abort();
    const uint8_t *line = exact;
    for (size_t i = 0; i < count; i++) {
        warc_row_at(archive, first + i, &row, texts, sizeof texts, &problem);
        if (row.offset != rows[i].offset || row.block_length != rows[i].block_length) abort();
        const uint32_t lengths[] = {row.type_length, row.date_length, row.id_length, row.target_length};
        const uint8_t *at = texts;
        for (size_t part = 0; part < 4; at += lengths[part++]) {
            if (!is_line(&line, at, lengths[part])) abort();
        }
    }
    size_t filled = (size_t)(line - exact);
    if (warc_rows(archive, first, rows, count, exact, filled, NULL) != count) abort();
    if (count != 0 && warc_rows(archive, first, rows, count, exact, filled - 1, NULL) != count - 1) abort();
}

/* The fields of many heads are those of each, and the last of these needs all the room that is filled. */
static void ask_fields(warc_archive *archive, size_t first) {
    static uint8_t out[98304];
    warc_lines lines[8];
    warc_field field;
    warc_problem problem;
    uint8_t *exact = out + (below(4) ? 0 : below(sizeof out));
    size_t count = warc_fields(archive, first, lines, below(9), exact, (size_t)(out + sizeof out - exact), &problem);
    if (problem.code || count > 8 || (count != 0 && first + count > warc_count(archive))) abort();
    const uint8_t *line = exact;
    for (size_t i = 0; i < count; i++) {
        const uint8_t *begin = line;
        for (size_t place = 0; place < lines[i].fields; place++) {
            if (!warc_field_at(archive, first + i, place, &field, &problem)) abort();
            if (!is_line(&line, field.name, field.name_length)) abort();
            if (!is_line(&line, field.value, field.value_length)) abort();
        }
        if (warc_field_at(archive, first + i, lines[i].fields, &field, &problem) || problem.code) abort();
        if ((size_t)(line - begin) != lines[i].length) abort();
    }
    size_t filled = (size_t)(line - exact);
    if (warc_fields(archive, first, lines, count, exact, filled, NULL) != count) abort();
    if (count != 0 && warc_fields(archive, first, lines, count, exact, filled - 1, NULL) != count - 1) abort();
}

static void ask_all(warc_archive *archive, const text *of) {
    static uint8_t out[ROOM];
    warc_problem problem;
    warc_field field;
    size_t count = warc_count(archive);
    warc_list(archive, out, below(ROOM), &problem);
    warc_check(archive, out, below(ROOM), &problem);
    size_t length = warc_fixity(archive, out, 0, &problem);
    if (length == 0 || warc_fixity(archive, out, below(ROOM), &problem) != length) abort();
    warc_row_at(archive, count, NULL, NULL, 0, &problem);
    if (problem.code != WARC_NO_RECORD) abort();
    if (!is_no_record(warc_verdict_at(archive, count, &problem), WARC_UNCHECKED, &problem)) abort();
    if (!is_no_record(warc_stated_verdict_at(archive, count, &problem), WARC_UNCHECKED, &problem)) abort();
    if (!is_no_record(warc_payload_verdict_at(archive, count, &problem), WARC_PAYLOAD_NONE, &problem)) abort();
    if (warc_field_at(archive, count, 0, &field, &problem) || problem.code != WARC_NO_RECORD) abort();
    if (warc_http_field_at(archive, count, 0, &field, &problem) || problem.code != WARC_NO_RECORD) abort();
    for (size_t position = 0; position < count && position < 50; position++) ask_record(archive, position, of);
    ask_rows(archive, below(count + 2));
    ask_fields(archive, below(count + 2));
}

/* Asks for the pieces of bytes, in room for some of them. They follow one another to the end, runs and damage in turn,
 * and each run opens as an archive of as many records. */
static void ask_pieces(const text *it) {
    warc_archive *archive;
    warc_problem problem;
    size_t count = warc_pieces(it->bytes, it->length, NULL, 0, &problem), room = below(count + 2);
    warc_piece *pieces = malloc(room ? room * sizeof *pieces : 1);
    uint64_t end = 0;
    if (pieces == NULL) exit(9);
    if (problem.code || warc_pieces(it->bytes, it->length, pieces, room, &problem) != count || problem.code) abort();
    for (size_t i = 0; i < count && i < room; i++) {
        bool is_run = pieces[i].count != 0;
        if (pieces[i].offset != end || pieces[i].length == 0 || pieces[i].length > it->length - end) abort();
        if (is_run == (pieces[i].fault.code != 0) || pieces[i].fault.code > WARC_FAULT_TRUNCATED) abort();
        if (i && is_run == (pieces[i - 1].count != 0)) abort();
        end += pieces[i].length;
        if (!is_run) continue;
        if (!warc_open(&archive, it->bytes + pieces[i].offset, (size_t)pieces[i].length, &problem)) abort();
        if (warc_count(archive) != pieces[i].count) abort();
        warc_close(archive);
    }
    if (room >= count && end != it->length) abort();
    free(pieces);
}

/* What is null or too long is a problem, and no crash. */
static void ask_wrongly(void) {
    warc_archive *archive;
    warc_problem problem;
    warc_draft draft = {0};
    uint8_t byte = 0;
    uint64_t sent = 1;
    warc_cursor cursor = {0};
    warc_portion portion;
    if (warc_open(NULL, &byte, 1, &problem) || problem.code != WARC_BAD_ARGUMENT) abort();
    if (warc_open(&archive, NULL, 1, &problem) || problem.code != WARC_BAD_ARGUMENT || archive != NULL) abort();
    if (warc_open(&archive, &byte, (size_t)PTRDIFF_MAX + 1, &problem) || problem.code != WARC_BAD_ARGUMENT) abort();
    if (warc_open(&archive, &byte, 1, &problem) || problem.code != WARC_FAULT_VERSION || archive != NULL) abort();
    if (warc_open_front(NULL, &byte, 1, NULL, &problem) || problem.code != WARC_BAD_ARGUMENT) abort();
    if (warc_grow(NULL, NULL, 0, &problem) || problem.code != WARC_BAD_ARGUMENT) abort();
    if (warc_verdict_at(NULL, 0, &problem) != WARC_UNCHECKED || problem.code != WARC_BAD_ARGUMENT) abort();
    if (warc_stated_verdict_at(NULL, 0, &problem) != WARC_UNCHECKED || problem.code != WARC_BAD_ARGUMENT) abort();
    if (warc_payload_verdict_at(NULL, 0, &problem) != WARC_PAYLOAD_NONE || problem.code != WARC_BAD_ARGUMENT) abort();
    if (warc_count(NULL) || warc_length(NULL) || warc_problem_text(NULL, NULL, 0)) abort();
    if (warc_list(NULL, NULL, 0, &problem) || problem.code != WARC_BAD_ARGUMENT) abort();
    if (warc_pieces(NULL, 1, NULL, 0, &problem) || problem.code != WARC_BAD_ARGUMENT) abort();
    if (warc_pieces(&byte, 1, NULL, 1, &problem) || problem.code != WARC_BAD_ARGUMENT) abort();
    if (warc_pieces(&byte, (size_t)PTRDIFF_MAX + 1, NULL, 0, &problem) || problem.code != WARC_BAD_ARGUMENT) abort();
    if (warc_pieces(NULL, 0, NULL, 0, &problem) || problem.code) abort();
    if (warc_pieces(&byte, 1, NULL, 0, NULL) != 1) abort();
    if (warc_rewrite(NULL, 1, &sent, &problem) || problem.code != WARC_BAD_ARGUMENT || sent) abort();
    if (warc_make(NULL, 1, NULL, &problem) || problem.code != WARC_BAD_ARGUMENT) abort();
    if (warc_make(&draft, 1, NULL, &problem) || problem.code != WARC_MADE_KIND) abort();
    if (warc_made(&draft, NULL, NULL, 0, &problem) || problem.code != WARC_BAD_ARGUMENT) abort();
    if (warc_next_rewritten(NULL, &cursor, &portion, NULL, 0, &problem)) abort();
    if (problem.code != WARC_BAD_ARGUMENT) abort();
    warc_close(NULL);
    if (!warc_open(&archive, NULL, 0, NULL) || warc_count(archive)) abort();
    if (warc_replay(archive, &byte, 1, NULL, 0, NULL, NULL, 0, &problem) || problem.code != WARC_BAD_DATE) abort();
    if (warc_body_at(archive, 0, NULL, NULL, 3, &problem) || problem.code != WARC_BAD_ARGUMENT) abort();
    if (warc_field_at(archive, 0, 0, NULL, &problem) || problem.code != WARC_BAD_ARGUMENT) abort();
    if (warc_rows(archive, 0, NULL, 1, NULL, 0, &problem) || problem.code != WARC_BAD_ARGUMENT) abort();
    if (warc_fields(archive, 0, NULL, 0, NULL, 1, &problem) || problem.code != WARC_BAD_ARGUMENT) abort();
    if (warc_rows(archive, 0, NULL, 0, NULL, 0, &problem) || problem.code) abort();
    if (warc_fields(archive, 7, NULL, 0, NULL, 0, &problem) || problem.code) abort();
    if (warc_split(archive, 0, 1, NULL, &problem) || problem.code != WARC_BAD_ARGUMENT) abort();
    if (warc_select(archive, NULL, 1, false, false, 1, &sent, &problem)) abort();
    if (problem.code != WARC_BAD_ARGUMENT || sent) abort();
    if (warc_select(archive, &sent, SIZE_MAX, true, true, 1, NULL, &problem)) abort();
    if (problem.code != WARC_BAD_ARGUMENT) abort();
    if (warc_select(archive, &sent, 1, false, true, 1, NULL, &problem) || problem.code != WARC_NO_RECORD) abort();
    if (warc_chosen(archive, NULL, 0, true, false, NULL, 1, &problem) || problem.code != WARC_BAD_ARGUMENT) abort();
    if (warc_rewrite(archive, -1, NULL, &problem) || problem.code != WARC_WRITE_FAILED) abort();
    if (warc_next_split(archive, 0, &cursor, &portion, NULL, 0, &problem)) abort();
    if (problem.code != WARC_BAD_ARGUMENT) abort();
    if (warc_next_rewritten(archive, NULL, &portion, NULL, 0, &problem)) abort();
    if (problem.code != WARC_BAD_ARGUMENT) abort();
    if (warc_next_selected(archive, &sent, 1, &cursor, &portion, &problem)) abort();
    if (problem.code != WARC_NO_RECORD) abort();
    cursor.place = cursor.segment = UINT64_MAX;
    if (warc_next_converted(archive, &cursor, &portion, NULL, 0, &problem) || problem.code) abort();
    if (warc_grow(archive, &byte, 1, &problem) || problem.code != WARC_FAULT_VERSION) abort();
    warc_close(archive);
    for (uint32_t code = 0; code < 400; code++) {
        for (uint32_t detail = 0; detail < 8; detail++) {
            char some[64];
            problem.code = code;
            problem.detail = detail;
            problem.number = UINT64_MAX;
            if (warc_problem_text(&problem, some, sizeof some) > sizeof some) abort();
        }
    }
}

/* Opens the whole, or a front first, which then grows; or as far as it is good. */
static warc_archive *opened(const text *it, warc_problem *problem) {
    static uint8_t out[ROOM];
    warc_archive *archive;
    warc_problem fault;
    switch (below(4)) {
    case 0:
        if (!warc_open(&archive, it->bytes, below(it->length + 1), problem)) break;
        if (warc_grow(archive, it->bytes, it->length, problem)) return archive;
        warc_close(archive);
        break;
    case 1:
        if (!warc_open_front(&archive, it->bytes, it->length, &fault, problem)) abort();
        if (warc_length(archive) > it->length || (fault.code == 0) != (warc_length(archive) == it->length)) abort();
        if (warc_grow(archive, it->bytes, it->length, problem) != (fault.code == 0)) abort();
        return archive;
    default:
        if (warc_open(&archive, it->bytes, it->length, problem)) return archive;
    }
    if (warc_problem_text(problem, (char *)out, ROOM) == 0) abort();
    return NULL;
}

/* Shorter bytes, and another head of the last record, are refused, and the archive stays as it was. */
static void grow_wrongly(warc_archive *archive, const text *it) {
    warc_problem problem;
    warc_span head;
    size_t count = warc_count(archive), length = warc_length(archive);
    if (count == 0 || !warc_head_at(archive, count - 1, &head, &problem)) return;
    if (warc_grow(archive, it->bytes, below(length), &problem) || problem.code != WARC_CHANGED) abort();
    uint8_t *other = malloc(length);
    if (other == NULL) exit(9);
    memcpy(other, it->bytes, length);
    other[head.offset + below((size_t)head.length)] ^= 1;
    if (warc_grow(archive, other, length, &problem) || problem.code != WARC_CHANGED) abort();
    free(other);
    if (warc_count(archive) != count || warc_length(archive) != length) abort();
    if (!warc_grow(archive, it->bytes, length, &problem) || warc_count(archive) != count) abort();
}

/* The next portion of an output of some kind. */
static bool next(warc_archive *archive, size_t kind, const uint64_t *chosen, size_t count, const warc_cursor *cursor,
                 warc_portion *portion, uint8_t *text, size_t room, warc_problem *problem) {
    if (kind == 0) return warc_next_rewritten(archive, cursor, portion, text, room, problem);
    if (kind == 1) return warc_next_converted(archive, cursor, portion, text, room, problem);
    if (kind == 2) return warc_next_split(archive, 7, cursor, portion, text, room, problem);
    return warc_next_selected(archive, chosen, count, cursor, portion, problem);
}

/* The next bytes of a file are these. */
static void require_next(FILE *file, const uint8_t *bytes, uint64_t length) {
    for (uint64_t i = 0; i < length; i++) {
        if (getc(file) != bytes[i]) abort();
    }
}

/* All portions of an output, one after another, are what a descriptor gets. Each is asked for without room for its
 * text, and again with as much as that takes. */
static void require_portions(warc_archive *archive, const text *it, size_t kind, FILE *file) {
    warc_problem problem;
    warc_portion portion, again;
    size_t count = kind == 3 ? warc_count(archive) : 0;
    uint64_t *chosen = calloc(count + 1, sizeof *chosen);
    if (chosen == NULL) exit(9);
    if (warc_chosen(archive, NULL, 0, true, false, chosen, count, NULL) != warc_count(archive)) abort();
    rewind(file);
    for (warc_cursor at = {0}; next(archive, kind, chosen, count, &at, &portion, NULL, 0, &problem); at = again.next) {
        uint64_t length = portion.before + portion.after;
        uint8_t *text = malloc(length + 1);
        if (text == NULL) exit(9);
        if (!next(archive, kind, chosen, count, &at, &again, text, length, &problem)) abort();
        if (memcmp(&again, &portion, sizeof portion)) abort();
        require_next(file, text, portion.before);
        require_next(file, it->bytes + portion.span.offset, portion.span.length);
        require_next(file, text + portion.before, portion.after);
        free(text);
    }
    if (problem.code || getc(file) != EOF) abort();
    free(chosen);
}

/* Writes an archive to a file and compares it with its portions. */
static void write_portions(warc_archive *archive, const text *it) {
    size_t kind = below(4);
    FILE *file = tmpfile();
    if (file == NULL) exit(9);
    bool is_written = kind == 0 ? warc_rewrite(archive, fileno(file), NULL, NULL)
        : kind == 1 ? warc_convert(archive, fileno(file), NULL, NULL)
        : kind == 2 ? warc_split(archive, 7, fileno(file), NULL, NULL)
        : warc_select(archive, NULL, 0, true, false, fileno(file), NULL, NULL);
    if (!is_written) abort();
    require_portions(archive, it, kind, file);
    fclose(file);
}

/* Writes what opens. */
static void write_anew(const text *it, int file) {
    warc_archive *archive;
    warc_problem problem;
    if (!warc_open(&archive, it->bytes, it->length, &problem)) return;
    size_t count = warc_count(archive);
    uint64_t some[3] = {below(count + 1), below(count + 1), 0};
    bool are_there = some[0] < count && some[1] < count && count != 0;
    if (warc_select(archive, some, 3, below(2), below(2), file, NULL, &problem) != are_there) abort();
    if (!are_there && problem.code != WARC_NO_RECORD) abort();
    if (!warc_select(archive, NULL, 0, below(2), below(2), file, NULL, &problem)) abort();
    if (!warc_rewrite(archive, file, NULL, &problem) || !warc_convert(archive, file, NULL, &problem)) abort();
    if (!warc_split(archive, 1 + below(100), file, NULL, &problem)) abort();
    write_portions(archive, it);
    warc_close(archive);
}

int main(int argc, char **argv) {
    size_t count = argc > 3 ? strtoul(argv[1], NULL, 10) : 0, are_open = 0, made;
    int file = open("/dev/null", O_WRONLY);
    if (argc < 4 || file < 0) return 9;
    state = strtoull(argv[2], NULL, 10) * 2654435761u + 88172645463325252u;
    for (int i = 3; i < argc && archive_count < MOST_ARCHIVES; i++) read_file(argv[i]);
    ask_wrongly();
    for (made = 0; made < count; made++) {
        warc_problem problem;
        text it = changed();
        warc_archive *archive = opened(&it, &problem);
        ask_pieces(&it);
        if (below(8) == 0) write_anew(&it, file);
        if (archive != NULL) {
            are_open++;
            ask_all(archive, &it);
            grow_wrongly(archive, &it);
            ask_all(archive, &it);
            warc_close(archive);
        }
        free(it.bytes);
    }
    close(file);
    for (size_t i = 0; i < archive_count; i++) free(archives[i].bytes);
    printf("%zu archives, %zu opened\n", made, are_open);
    return 0;
}
