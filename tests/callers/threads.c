/* threads ARCHIVE: threads that open the same bytes, each for itself, and ask them everything; for -fsanitize=thread to
 * watch. Prints how many records they saw, which is the same for each. */
#include <pthread.h>
#include <stdio.h>
#include <stdlib.h>

#include "warc.h"

enum { THREADS = 8, ROUNDS = 20, ROOM = 70000 };

static uint8_t *bytes;
static size_t length;

static void ask(warc_archive *archive, size_t position, uint8_t *texts) {
    warc_field field;
    warc_http http;
    warc_row row;
    warc_problem problem;
    warc_row_at(archive, position, &row, texts, ROOM, &problem);
    if (problem.code) abort();
    warc_verdict_at(archive, position, NULL);
    warc_stated_verdict_at(archive, position, NULL);
    warc_payload_verdict_at(archive, position, NULL);
    warc_body_at(archive, position, NULL, NULL, 0, NULL);
    for (size_t place = 0; warc_field_at(archive, position, place, &field, NULL); place++) continue;
    warc_http_at(archive, position, &http, NULL);
}

static void *work(void *seen) {
    uint8_t *texts = malloc(ROOM);
    if (texts == NULL) abort();
    for (int round = 0; round < ROUNDS; round++) {
        warc_archive *archive;
        if (!warc_open(&archive, bytes, length, NULL)) abort();
        *(size_t *)seen += warc_count(archive);
        for (size_t position = 0; position < warc_count(archive); position++) ask(archive, position, texts);
        warc_list(archive, texts, ROOM, NULL);
        warc_check(archive, texts, ROOM, NULL);
        warc_fixity(archive, texts, ROOM, NULL);
        warc_close(archive);
    }
    free(texts);
    return NULL;
}

int main(int argc, char **argv) {
    pthread_t threads[THREADS];
    size_t seen[THREADS] = {0};
    FILE *file = argc == 2 ? fopen(argv[1], "rb") : NULL;
    if (file == NULL || fseek(file, 0, SEEK_END)) return 9;
    length = (size_t)ftell(file);
    bytes = malloc(length);
    rewind(file);
    if (bytes == NULL || fread(bytes, 1, length, file) != length) return 9;
    fclose(file);
    for (int i = 0; i < THREADS; i++) {
        if (pthread_create(&threads[i], NULL, work, &seen[i])) return 9;
    }
    for (int i = 0; i < THREADS; i++) pthread_join(threads[i], NULL);
    for (int i = 0; i < THREADS; i++) {
        if (seen[i] != seen[0]) return 1;
    }
    free(bytes);
    printf("%d threads, %zu records each\n", THREADS, seen[0]);
    return 0;
}
