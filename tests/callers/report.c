/* report ARCHIVE: what warc.h gives of an archive, in the form that tests/callers/compare.py compares. */
#include <fcntl.h>
#include <stdio.h>
#include <stdlib.h>
#include <string.h>
#include <sys/mman.h>
#include <sys/stat.h>
#include <unistd.h>

#include "warc.h"

static const uint8_t *bytes;
static size_t length;

/* Maps a file. An empty one can't be mapped, and is the null pointer. */
static int map_file(const char *path) {
    struct stat facts;
    int file = open(path, O_RDONLY);
    if (file < 0 || fstat(file, &facts)) return -1;
    length = (size_t)facts.st_size;
    bytes = length ? mmap(NULL, length, PROT_READ, MAP_PRIVATE, file, 0) : NULL;
    close(file);
    return bytes == MAP_FAILED ? -1 : 0;
}

static void print_problem(const warc_problem *problem) {
    char text[64];
    size_t size = warc_problem_text(problem, text, sizeof text);
    printf("%.*s\n", (int)size, text);
}

/* A text that a call gives whole: its length first, then the text. */
static void print_text(const char *title, size_t (*ask)(warc_archive *, uint8_t *, size_t, warc_problem *),
                       warc_archive *archive) {
    warc_problem problem;
    size_t size = ask(archive, NULL, 0, &problem);
    uint8_t *text = malloc(size + 1);
    printf("== %s\n", title);
    if (text == NULL || ask(archive, text, size, &problem) != size) exit(9);
    if (problem.code) print_problem(&problem);
    fwrite(text, 1, size, stdout);
    free(text);
}

/* The lines of `warc list`, made of rows. */
static void print_rows(warc_archive *archive) {
    static uint8_t texts[65536];
    printf("== rows\n");
    for (size_t position = 0; position < warc_count(archive); position++) {
        warc_problem problem;
        warc_row row;
        const char *text = (const char *)texts;
        warc_row_at(archive, position, &row, texts, sizeof texts, &problem);
        if (problem.code) exit(8);
        printf("%zu\t%llu\t%llu\t%.*s\t", position, (unsigned long long)row.offset,
               (unsigned long long)row.block_length, (int)row.type_length, text);
        text += row.type_length;
        printf("%.*s\t", (int)row.date_length, text);
        text += row.date_length;
        fwrite(text, 1, row.id_length, stdout);
        text += row.id_length;
        putchar('\t');
        if (row.target_length) fwrite(text, 1, row.target_length, stdout);
        else putchar('-');
        putchar('\n');
    }
}

/* The verdict on each record's block. */
static void print_verdicts(warc_archive *archive) {
    static const char *const names[] = {"good", "bad", "unchecked"};
    printf("== verdicts\n");
    for (size_t position = 0; position < warc_count(archive); position++) {
        warc_problem problem;
        uint32_t verdict = warc_verdict_at(archive, position, &problem);
        if (problem.code || verdict > WARC_UNCHECKED) exit(4);
        printf("%zu %s\n", position, names[verdict]);
    }
}

/* The lines of `warc fixity` without ids and digests, made of the verdicts on single records. */
static void print_stated(warc_archive *archive) {
    static const char *const names[] = {"good", "bad", "unchecked"};
    size_t counts[3] = {0};
    printf("== stated\n");
    for (size_t position = 0; position < warc_count(archive); position++) {
        warc_problem problem;
        uint32_t verdict = warc_stated_verdict_at(archive, position, &problem);
        if (problem.code || verdict > WARC_UNCHECKED) exit(4);
        counts[verdict]++;
        if (verdict != WARC_GOOD) printf("%zu\t%s\n", position, names[verdict]);
    }
    printf("records %zu good %zu bad %zu unchecked %zu\n", warc_count(archive), counts[0], counts[1], counts[2]);
}

/* The same of `warc fixity --payload`. */
static void print_payloads(warc_archive *archive) {
    static const char *const reasons[] = {"", "-", "", "revisit", "request", "segment", "algorithm", "head", "coded"};
    size_t good = 0, bad = 0, unchecked = 0;
    printf("== payloads\n");
    for (size_t position = 0; position < warc_count(archive); position++) {
        warc_problem problem;
        uint32_t verdict = warc_payload_verdict_at(archive, position, &problem);
        if (problem.code || verdict > WARC_PAYLOAD_CODED) exit(4);
        if (verdict == WARC_PAYLOAD_NONE) continue;
        good += verdict == WARC_PAYLOAD_GOOD;
        bad += verdict == WARC_PAYLOAD_BAD;
        unchecked += verdict > WARC_PAYLOAD_NONE;
        if (verdict == WARC_PAYLOAD_GOOD) continue;
        printf("%zu\t%s\t%s\n", position, verdict == WARC_PAYLOAD_BAD ? "bad" : "unchecked", reasons[verdict]);
    }
    printf("records %zu good %zu bad %zu unchecked %zu\n", good + bad + unchecked, good, bad, unchecked);
}

/* The facts and the bytes of a body, or why there is none. */
static void print_body(size_t count, const warc_answer *answer, const warc_span *spans, const warc_problem *problem) {
    if (problem->code) {
        print_problem(problem);
        return;
    }
    printf("chosen %llu given %llu status ", (unsigned long long)answer->chosen, (unsigned long long)answer->given);
    if (answer->status) printf("%u", answer->status);
    else printf("-");
    printf(" truncated %s length %llu\n", answer->is_truncated ? "yes" : "no", (unsigned long long)answer->length);
    for (size_t i = 0; i < count; i++) fwrite(bytes + spans[i].offset, 1, spans[i].length, stdout);
    putchar('\n');
}

static void print_bodies(warc_archive *archive) {
    static uint8_t texts[65536];
    for (size_t position = 0; position < warc_count(archive); position++) {
        warc_problem problem;
        warc_answer answer;
        warc_row row;
        size_t room = warc_body_at(archive, position, NULL, NULL, 0, &problem);
        warc_span *spans = malloc((room + 1) * sizeof *spans);
        if (spans == NULL) exit(7);
        printf("== body %zu\n", position);
        size_t count = warc_body_at(archive, position, &answer, spans, room, &problem);
        print_body(count, &answer, spans, &problem);
        free(spans);
        warc_row_at(archive, position, &row, texts, sizeof texts, &problem);
        if (row.target_length == 0) continue;
        const uint8_t *date = texts + row.type_length, *uri = date + row.date_length + row.id_length;
        warc_span some[64];
        printf("== replay %zu\n", position);
        count = warc_replay(archive, uri, row.target_length, date, row.date_length, &answer, some, 64, &problem);
        if (count > 64) exit(6);
        print_body(count, &answer, some, &problem);
    }
}

static void print_field(const warc_field *field) {
    fwrite(field->name, 1, field->name_length, stdout);
    putchar('\t');
    fwrite(field->value, 1, field->value_length, stdout);
    putchar('\n');
}

/* The fields of each record's head, and what its HTTP head says. */
static void print_heads(warc_archive *archive) {
    for (size_t position = 0; position < warc_count(archive); position++) {
        warc_field field;
        warc_http http;
        warc_problem problem;
        printf("== fields %zu\n", position);
        for (size_t place = 0; warc_field_at(archive, position, place, &field, &problem); place++) print_field(&field);
        if (problem.code) exit(3);
        if (!warc_http_at(archive, position, &http, &problem)) {
            if (problem.code != WARC_BAD_HEAD) exit(3);
            continue;
        }
        printf("== http %zu\nHTTP/1.%u %u ", position, http.minor, http.status);
        fwrite(http.reason, 1, http.reason_length, stdout);
        printf("\t%llu\n", (unsigned long long)http.body.length);
        for (size_t place = 0; place < http.fields; place++) {
            if (!warc_http_field_at(archive, position, place, &field, &problem)) exit(3);
            print_field(&field);
        }
        if (warc_http_field_at(archive, position, http.fields, &field, &problem) || problem.code) exit(3);
        fwrite(bytes + http.body.offset, 1, http.body.length, stdout);
        putchar('\n');
    }
}

/* The lines of `warc pieces`, made of pieces: asked for their number first, and then for all. */
static void print_pieces(void) {
    warc_problem problem;
    size_t count = warc_pieces(bytes, length, NULL, 0, &problem);
    warc_piece *pieces = malloc((count + 1) * sizeof *pieces);
    printf("== pieces\n");
    if (problem.code || pieces == NULL || warc_pieces(bytes, length, pieces, count, &problem) != count) exit(2);
    for (size_t i = 0; i < count; i++) {
        printf("%s\t%llu\t%llu\t", pieces[i].count ? "records" : "damage", (unsigned long long)pieces[i].offset,
               (unsigned long long)pieces[i].length);
        if (pieces[i].count) printf("%llu\n", (unsigned long long)pieces[i].count);
        else print_problem(&pieces[i].fault);
    }
    free(pieces);
}

int main(int argc, char **argv) {
    warc_archive *archive;
    warc_problem problem;
    if (argc != 2 || map_file(argv[1])) return 9;
    if (warc_abi_version() != WARC_ABI_VERSION) return 9;
    print_pieces();
    if (!warc_open(&archive, bytes, length, &problem)) {
        printf("== refused\n");
        print_problem(&problem);
        return archive == NULL ? 0 : 5;
    }
    print_text("list", warc_list, archive);
    print_rows(archive);
    print_text("check", warc_check, archive);
    print_text("fixity", warc_fixity, archive);
    print_verdicts(archive);
    print_stated(archive);
    print_payloads(archive);
    print_bodies(archive);
    print_heads(archive);
    warc_close(archive);
    return fclose(stdout) == 0 ? 0 : 9;
}
