/* example ARCHIVE URI DATE: prints what an archive has, and the page that was captured of a URI as of a date. */
#include <fcntl.h>
#include <stdio.h>
#include <stdlib.h>
#include <string.h>
#include <sys/mman.h>
#include <sys/stat.h>
#include <unistd.h>

#include "warc.h"

static int fail(const char *what, const warc_problem *problem) {
    char text[64];
    size_t length = warc_problem_text(problem, text, sizeof text);
    fprintf(stderr, "%s: %.*s\n", what, (int)length, text);
    return 1;
}

/* Maps a file. An empty one can't be mapped, and is no bytes; a pipe can't be mapped either, and has a length of 0. */
static const uint8_t *map(const char *path, size_t *length) {
    struct stat facts;
    int file = open(path, O_RDONLY);
    void *bytes = MAP_FAILED;
    if (file >= 0 && fstat(file, &facts) == 0) {
        if (!S_ISREG(facts.st_mode)) {
            fprintf(stderr, "%s: it is no file that can be mapped\n", path);
            close(file);
            return MAP_FAILED;
        }
        *length = (size_t)facts.st_size;
        bytes = *length == 0 ? NULL : mmap(NULL, *length, PROT_READ, MAP_PRIVATE, file, 0);
    }
    if (bytes == MAP_FAILED) perror(path);
    if (file >= 0) close(file);
    return bytes;
}

/* Writes the body of a URI as of a date: first asks how many spans it has, then for all of them. */
static int print_page(warc_archive *archive, const uint8_t *bytes, const char *uri, const char *date) {
    warc_problem problem;
    const uint8_t *uri_bytes = (const uint8_t *)uri, *date_bytes = (const uint8_t *)date;
    size_t uri_length = strlen(uri), date_length = strlen(date);
    size_t count = warc_replay(archive, uri_bytes, uri_length, date_bytes, date_length, NULL, NULL, 0, &problem);
    warc_span *spans = calloc(count + 1, sizeof *spans);
    if (spans == NULL) return 1;
    warc_replay(archive, uri_bytes, uri_length, date_bytes, date_length, NULL, spans, count, &problem);
    for (size_t i = 0; i < count; i++) fwrite(bytes + spans[i].offset, 1, spans[i].length, stdout);
    free(spans);
    return problem.code == 0 ? 0 : fail(uri, &problem);
}

int main(int argc, char **argv) {
    if (argc != 4) {
        fprintf(stderr, "usage: example ARCHIVE URI DATE\n");
        return 2;
    }
    size_t length = 0;
    const uint8_t *bytes = map(argv[1], &length);
    if (bytes == MAP_FAILED) return 2;

    warc_archive *archive;
    warc_problem problem;
    if (!warc_open(&archive, bytes, length, &problem)) return fail(argv[1], &problem);
    printf("%zu records\n", warc_count(archive));
    int status = print_page(archive, bytes, argv[2], argv[3]);
    warc_close(archive);

    /* fclose writes what stdout holds back. It says nothing of writes that failed before. */
    int has_failed = ferror(stdout);
    if (fclose(stdout) != 0 || has_failed) {
        fprintf(stderr, "standard output: write failed\n");
        return 1;
    }
    return status;
}
