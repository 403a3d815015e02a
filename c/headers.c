/* headers ARCHIVE: prints the fields of each record's head and of its HTTP head, up to the first damage. */
#include <stdio.h>
#include <stdlib.h>

#include "warc.h"

/* Reads a file into memory, where a disk that fails can't kill the program. */
static uint8_t *read_file(const char *path, size_t *length) {
    size_t room = 1 << 16;
    uint8_t *bytes = malloc(room);
    FILE *file = fopen(path, "rb");
    while (file != NULL && bytes != NULL) {
        size_t count = fread(bytes + *length, 1, room - *length, file);
        *length += count;
        if (count == 0) break;
        if (*length < room) continue;
        uint8_t *more = realloc(bytes, room *= 2);
        if (more == NULL) free(bytes);
        bytes = more;
    }
    if (file == NULL || bytes == NULL || ferror(file)) {
        perror(path);
        exit(2);
    }
    fclose(file);
    return bytes;
}

static void print_field(const warc_field *field) {
    printf("  ");
    fwrite(field->name, 1, field->name_length, stdout);
    printf(": ");
    fwrite(field->value, 1, field->value_length, stdout);
    printf("\n");
}

static void print_record(warc_archive *archive, size_t position) {
    warc_field field;
    warc_http http;
    warc_problem problem;
    printf("record %zu\n", position);
    for (size_t place = 0; warc_field_at(archive, position, place, &field, &problem); place++) print_field(&field);
    if (!warc_http_at(archive, position, &http, &problem)) return;
    printf(" HTTP/1.%u %u, %llu bytes follow\n", http.minor, http.status, (unsigned long long)http.body.length);
    for (size_t place = 0; warc_http_field_at(archive, position, place, &field, &problem); place++) print_field(&field);
}

int main(int argc, char **argv) {
    size_t length = 0;
    warc_archive *archive;
    warc_problem fault, problem;
    char text[64];
    if (argc != 2) return 2;
    uint8_t *bytes = read_file(argv[1], &length);
    if (!warc_open_front(&archive, bytes, length, &fault, &problem)) return 3;
    for (size_t position = 0; position < warc_count(archive); position++) print_record(archive, position);
    if (fault.code) {
        size_t size = warc_problem_text(&fault, text, sizeof text);
        printf("then %.*s\n", (int)size, text);
    }
    warc_close(archive);
    free(bytes);

    /* fclose writes what stdout holds back. It says nothing of writes that failed before. */
    int has_failed = ferror(stdout);
    return fclose(stdout) != 0 || has_failed ? 1 : 0;
}
