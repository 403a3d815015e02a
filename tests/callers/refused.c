/* refused ARCHIVE..: has requests for memory and writes fail while archives are written, each in turn.
 *
 * A portion that is refused is asked for again at the same cursor, and is then what it would have been. Of an output
 * that a descriptor doesn't take whole, or for which memory runs out, a front goes out, as long as is said. Bytes that
 * change are a problem, and none once they are as they were. Prints how many requests and writes failed. */
#define _POSIX_C_SOURCE 200809L

#include <fcntl.h>
#include <signal.h>
#include <stdio.h>
#include <stdlib.h>
#include <string.h>
#include <sys/resource.h>
#include <unistd.h>

#include "warc.h"

enum { ROOM = 70000, SEGMENT = 50, STEPS = 40 };

/* How many requests for memory are granted before one is refused; below 0 all are. */
static long granted = -1;
static unsigned long refusals;

void *__libc_malloc(size_t size);
void *__libc_calloc(size_t count, size_t size);
void *__libc_realloc(void *old, size_t size);

static bool is_refused(void) {
    if (granted < 0 || granted-- > 0) return false;
    refusals++;
    return true;
}

void *malloc(size_t size) { return is_refused() ? NULL : __libc_malloc(size); }
void *calloc(size_t count, size_t size) { return is_refused() ? NULL : __libc_calloc(count, size); }
void *realloc(void *old, size_t size) { return is_refused() ? NULL : __libc_realloc(old, size); }

typedef struct {
    uint8_t *bytes;
    size_t length;
} text;

static void require(bool is_so) {
    if (!is_so) abort();
}

static text read_file(const char *path) {
    text it = {0};
    FILE *file = fopen(path, "rb");
    require(file != NULL && fseek(file, 0, SEEK_END) == 0);
    it.length = (size_t)ftell(file);
    it.bytes = malloc(it.length + 1);
    rewind(file);
    require(it.bytes != NULL && fread(it.bytes, 1, it.length, file) == it.length);
    fclose(file);
    return it;
}

/* The next portion of an output of some kind. */
static bool next(warc_archive *archive, int kind, const warc_cursor *cursor, warc_portion *portion, uint8_t *room,
                 warc_problem *problem) {
    if (kind == 0) return warc_next_rewritten(archive, cursor, portion, room, ROOM, problem);
    if (kind == 1) return warc_next_converted(archive, cursor, portion, room, ROOM, problem);
    return warc_next_split(archive, SEGMENT, cursor, portion, room, ROOM, problem);
}

/* Each request for memory of each portion is refused in turn. The cursor stays good: once none is refused, the portion
 * is the one that it is without a refusal. */
static void refuse_portions(warc_archive *archive, int kind) {
    static uint8_t wanted[ROOM], given[ROOM];
    warc_portion portion, again;
    warc_problem problem;
    for (warc_cursor at = {0}; next(archive, kind, &at, &portion, wanted, &problem); at = portion.next) {
        size_t length = (size_t)(portion.before + portion.after);
        bool is_there = false;
        for (long count = 0; !is_there; count++) {
            memset(&again, 0, sizeof again);
            granted = count;
            is_there = next(archive, kind, &at, &again, given, &problem);
            granted = -1;
            require(problem.code == (is_there ? 0 : WARC_NO_MEMORY));
        }
        require(memcmp(&again, &portion, sizeof again) == 0 && memcmp(given, wanted, length) == 0);
    }
    require(problem.code == 0);
}

static bool write_as(warc_archive *archive, int kind, int file, uint64_t *sent, warc_problem *problem) {
    if (kind == 0) return warc_rewrite(archive, file, sent, problem);
    if (kind == 1) return warc_convert(archive, file, sent, problem);
    if (kind == 2) return warc_split(archive, SEGMENT, file, sent, problem);
    return warc_select(archive, NULL, 0, true, kind == 4, file, sent, problem);
}

/* A file that is named nowhere any more. */
static int new_file(void) {
    char path[] = "/tmp/zogwedu-refused-XXXXXX";
    int file = mkstemp(path);
    require(file >= 0 && unlink(path) == 0);
    return file;
}

/* What a file has is a front of the whole, as long as is said. */
static void require_front(int file, const text *whole, uint64_t sent) {
    static uint8_t piece[1 << 16];
    off_t length = lseek(file, 0, SEEK_END);
    require(length >= 0 && (uint64_t)length == sent && sent <= whole->length);
    for (off_t at = 0; at < length;) {
        ssize_t count = pread(file, piece, sizeof piece, at);
        require(count > 0 && memcmp(piece, whole->bytes + at, (size_t)count) == 0);
        at += count;
    }
}

static text written(warc_archive *archive, int kind) {
    text whole = {0};
    int file = new_file();
    require(write_as(archive, kind, file, NULL, NULL));
    whole.length = (size_t)lseek(file, 0, SEEK_END);
    whole.bytes = malloc(whole.length + 1);
    require(whole.bytes != NULL && pread(file, whole.bytes, whole.length, 0) == (ssize_t)whole.length);
    close(file);
    return whole;
}

/* Each request for memory of an output is refused in turn, up to a number. */
static void refuse_memory(warc_archive *archive, int kind, const text *whole) {
    bool is_done = false;
    for (long count = 0; !is_done && count < STEPS; count++) {
        int file = new_file();
        uint64_t sent = 1;
        warc_problem problem;
        granted = count;
        is_done = write_as(archive, kind, file, &sent, &problem);
        granted = -1;
        require(problem.code == (is_done ? 0 : WARC_NO_MEMORY) && (!is_done || sent == 0));
        require_front(file, whole, is_done ? whole->length : sent);
        close(file);
    }
}

/* A file takes some bytes and no more: for some numbers below the output's length. */
static void refuse_writes(warc_archive *archive, int kind, const text *whole, unsigned long *failed) {
    const struct rlimit none = {RLIM_INFINITY, RLIM_INFINITY};
    for (size_t limit = 0; limit < whole->length; limit += whole->length / STEPS + 1) {
        const struct rlimit most = {limit, RLIM_INFINITY};
        int file = new_file();
        uint64_t sent = 1;
        warc_problem problem;
        require(setrlimit(RLIMIT_FSIZE, &most) == 0);
        require(!write_as(archive, kind, file, &sent, &problem) && problem.code == WARC_WRITE_FAILED);
        require(setrlimit(RLIMIT_FSIZE, &none) == 0 && sent == limit);
        require_front(file, whole, sent);
        close(file);
        ++*failed;
    }
}

/* A head that isn't what it was is a problem of its portion alone. Once it is as it was, the same cursor is good. */
static void change_heads(warc_archive *archive, const text *it, int kind) {
    static uint8_t room[ROOM];
    warc_portion portion;
    warc_problem problem;
    warc_cursor at = {0};
    for (size_t position = 0; position < warc_count(archive); position++) {
        warc_span head;
        require(warc_head_at(archive, position, &head, NULL));
        while (at.place == position) {
            it->bytes[head.offset] ^= 1;
            require(!next(archive, kind, &at, &portion, room, &problem) && problem.code == WARC_CHANGED);
            it->bytes[head.offset] ^= 1;
            require(next(archive, kind, &at, &portion, room, &problem));
            at = portion.next;
        }
    }
    require(!next(archive, kind, &at, &portion, room, &problem) && problem.code == 0);
}

int main(int argc, char **argv) {
    unsigned long failed = 0;
    signal(SIGXFSZ, SIG_IGN);
    for (int i = 1; i < argc; i++) {
        text it = read_file(argv[i]);
        warc_archive *archive;
        if (warc_open(&archive, it.bytes, it.length, NULL)) {
            for (int kind = 0; kind < 5; kind++) {
                text whole = written(archive, kind);
                if (kind < 3) refuse_portions(archive, kind);
                if (kind < 3) change_heads(archive, &it, kind);
                refuse_memory(archive, kind, &whole);
                refuse_writes(archive, kind, &whole, &failed);
                free(whole.bytes);
            }
        }
        warc_close(archive);
        free(it.bytes);
    }
    printf("%lu requests for memory and %lu writes failed\n", refusals, failed);
    return 0;
}
