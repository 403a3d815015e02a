/* compressed ARCHIVE: lists the records of an archive that gzip compressed.
 *
 * zlib's gzread isn't used: it ends without an error at a member whose first bytes are damaged, and what it gave until
 * then is a shorter archive, which may be good. Here each member must be whole, and only zero bytes may follow the last
 * one. What they hold goes to a file without a name, which is mapped: the memory is that of an uncompressed archive. */
#define _POSIX_C_SOURCE 200809L
#include <stdbool.h>
#include <stdio.h>
#include <stdlib.h>
#include <sys/mman.h>
#include <zlib.h>

#include "warc.h"

enum { PIECE = 1 << 16, GZIP = 15 + 16 }; /* zlib's window, and its word for gzip's head and foot */

struct input {
    FILE *file;
    z_stream stream;
    unsigned char data[PIECE];
};

static bool fail(const char *what, const char *why) {
    fprintf(stderr, "%s: %s\n", what, why);
    return false;
}

/* Whether there is input: what zlib hasn't taken, or more of the file. */
static bool has_input(struct input *in) {
    if (in->stream.avail_in == 0) {
        in->stream.next_in = in->data;
        in->stream.avail_in = (uInt)fread(in->data, 1, sizeof in->data, in->file);
    }
    return in->stream.avail_in != 0;
}

/* Writes what one member holds. */
static bool unpack_member(struct input *in, FILE *out, const char *path) {
    static unsigned char piece[PIECE];
    int code = Z_OK;
    while (code != Z_STREAM_END) {
        bool is_end = !has_input(in);
        in->stream.next_out = piece;
        in->stream.avail_out = sizeof piece;
        code = inflate(&in->stream, Z_NO_FLUSH);
        size_t length = sizeof piece - in->stream.avail_out;
        if (code == Z_BUF_ERROR && is_end) return fail(path, ferror(in->file) ? "read failed" : "it isn't whole");
        if (code < 0 || code == Z_NEED_DICT) return fail(path, in->stream.msg ? in->stream.msg : "zlib failed");
        if (fwrite(piece, 1, length, out) != length) return fail(path, "no room for what it holds");
    }
    return inflateReset(&in->stream) == Z_OK || fail(path, "zlib failed");
}

/* Takes zero bytes that follow a member. Sets `*is_end` where nothing else does. */
static bool skip_padding(struct input *in, const char *path, bool *is_end) {
    bool is_padded = false;
    while (has_input(in) && *in->stream.next_in == 0) {
        in->stream.next_in++;
        in->stream.avail_in--;
        is_padded = true;
    }
    *is_end = in->stream.avail_in == 0;
    if (ferror(in->file)) return fail(path, "read failed");
    return *is_end || !is_padded || fail(path, "other bytes follow zero bytes");
}

/* Writes what all members hold. */
static bool unpack(FILE *file, FILE *out, const char *path) {
    static struct input in;
    bool is_end = false, is_good = true;
    in.file = file;
    if (inflateInit2(&in.stream, GZIP) != Z_OK) return fail(path, "no memory");
    while (is_good && !is_end) is_good = unpack_member(&in, out, path) && skip_padding(&in, path, &is_end);
    inflateEnd(&in.stream);
    if (is_good && fflush(out) != 0) return fail(path, "no room for what it holds");
    return is_good;
}

/* Lists the archive that these bytes are. */
static bool list(const uint8_t *bytes, size_t length, const char *path) {
    warc_archive *archive;
    warc_problem problem;
    if (!warc_open(&archive, bytes, length, &problem)) {
        char text[64];
        size_t size = warc_problem_text(&problem, text, sizeof text);
        fprintf(stderr, "%s: %.*s\n", path, (int)size, text);
        return false;
    }
    size_t size = warc_list(archive, NULL, 0, &problem);
    uint8_t *text = malloc(size + 1);
    bool is_good = text != NULL && warc_list(archive, text, size, &problem) == size && problem.code == 0;
    if (is_good) fwrite(text, 1, size, stdout);
    free(text);
    warc_close(archive);
    return is_good || fail(path, "no memory");
}

/* Lists the archive that a file holds. An empty file can't be mapped, and is no bytes. */
static bool list_file(FILE *out, const char *path) {
    long length = ftell(out);
    if (length < 0) return fail(path, "its length is unknown");
    if (length == 0) return list(NULL, 0, path);
    void *bytes = mmap(NULL, (size_t)length, PROT_READ, MAP_PRIVATE, fileno(out), 0);
    if (bytes == MAP_FAILED) return fail(path, "it can't be mapped");
    bool is_good = list(bytes, (size_t)length, path);
    munmap(bytes, (size_t)length);
    return is_good;
}

int main(int argc, char **argv) {
    if (argc != 2) {
        fprintf(stderr, "usage: compressed ARCHIVE\n");
        return 2;
    }
    FILE *file = fopen(argv[1], "rb"), *out = tmpfile();
    if (file == NULL || out == NULL) {
        perror(file == NULL ? argv[1] : "a temporary file");
        return 2;
    }
    bool is_good = unpack(file, out, argv[1]) && list_file(out, argv[1]);
    fclose(file);
    fclose(out);

    /* fclose writes what stdout holds back. It says nothing of writes that failed before. */
    int has_failed = ferror(stdout);
    if (fclose(stdout) != 0 || has_failed) {
        fprintf(stderr, "standard output: write failed\n");
        return 1;
    }
    return is_good ? 0 : 1;
}
