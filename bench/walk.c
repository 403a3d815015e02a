/* The yardstick of bench.py: a plain walk over a WARC file.
 *
 *     walk FILE
 *
 * For each record it reads the head, hashes the block by SHA-1, compares the digest that the head names, and prints
 * the line of `warc list`. It reads the files that bench.py makes, with a digest in base32 in each head, and judges
 * nothing else: where one is otherwise, the exit status is 1. Compiled by `gcc -O2`.
 */
#define _GNU_SOURCE
#include <fcntl.h>
#include <stdint.h>
#include <stdio.h>
#include <stdlib.h>
#include <string.h>
#include <strings.h>
#include <unistd.h>

enum { PIECE = 1 << 16, MOST_HEAD = 1 << 16, WORDS = 16, DIGEST = 20, BASE32 = 32 };

/* SHA-1 (FIPS 180-4): the state, the bytes of a block that isn't whole yet, and the number of all bytes. */
struct sha1 {
    uint32_t state[5];
    unsigned char block[64];
    uint64_t length;
};

/* What a head says. The texts are in the reader's bytes, up to its next read. */
struct head {
    const char *type, *date, *id, *target, *digest;
    uint64_t start, length; /* the offset of the record, and the length of its block */
};

/* A file, with bytes that were read ahead: those from start to end aren't used yet. */
struct reader {
    int file;
    size_t start, end;
    uint64_t offset; /* of the first byte in the file */
    char bytes[MOST_HEAD + PIECE];
};

static uint32_t rotated(uint32_t word, int count) {
    return word << count | word >> (32 - count);
}

/* One round, with the five words where the round before left them. */
#define ROUND(a, b, c, d, e, mixed, constant, word) \
    do { \
        e += rotated(a, 5) + (mixed) + (constant) + (word); \
        b = rotated(b, 30); \
    } while (0)

/* Five rounds from t on bring the words back to their places. */
#define FIVE(mix, constant, word, t) \
    do { \
        ROUND(a, b, c, d, e, mix(b, c, d), constant, word(t)); \
        ROUND(e, a, b, c, d, mix(a, b, c), constant, word((t) + 1)); \
        ROUND(d, e, a, b, c, mix(e, a, b), constant, word((t) + 2)); \
        ROUND(c, d, e, a, b, mix(d, e, a), constant, word((t) + 3)); \
        ROUND(b, c, d, e, a, mix(c, d, e), constant, word((t) + 4)); \
    } while (0)

#define CHOOSE(x, y, z) ((z) ^ ((x) & ((y) ^ (z))))
#define PARITY(x, y, z) ((x) ^ (y) ^ (z))
#define MAJORITY(x, y, z) (((x) & (y)) | ((z) & ((x) | (y))))
#define FIRST(t) (w[t])
#define NEXT(t) \
    (w[(t) % WORDS] = rotated(w[((t) + 13) % WORDS] ^ w[((t) + 8) % WORDS] ^ w[((t) + 2) % WORDS] ^ w[(t) % WORDS], 1))

static void add_block(uint32_t state[5], const unsigned char *block) {
    uint32_t a = state[0], b = state[1], c = state[2], d = state[3], e = state[4], w[WORDS];
    for (int t = 0; t < WORDS; t++) {
        uint32_t word;
        memcpy(&word, block + 4 * t, 4);
        w[t] = __builtin_bswap32(word);
    }
    FIVE(CHOOSE, 0x5a827999, FIRST, 0);
    FIVE(CHOOSE, 0x5a827999, FIRST, 5);
    FIVE(CHOOSE, 0x5a827999, FIRST, 10);
    ROUND(a, b, c, d, e, CHOOSE(b, c, d), 0x5a827999, FIRST(15));
    ROUND(e, a, b, c, d, CHOOSE(a, b, c), 0x5a827999, NEXT(16));
    ROUND(d, e, a, b, c, CHOOSE(e, a, b), 0x5a827999, NEXT(17));
    ROUND(c, d, e, a, b, CHOOSE(d, e, a), 0x5a827999, NEXT(18));
    ROUND(b, c, d, e, a, CHOOSE(c, d, e), 0x5a827999, NEXT(19));
    FIVE(PARITY, 0x6ed9eba1, NEXT, 20);
    FIVE(PARITY, 0x6ed9eba1, NEXT, 25);
    FIVE(PARITY, 0x6ed9eba1, NEXT, 30);
    FIVE(PARITY, 0x6ed9eba1, NEXT, 35);
    FIVE(MAJORITY, 0x8f1bbcdc, NEXT, 40);
    FIVE(MAJORITY, 0x8f1bbcdc, NEXT, 45);
    FIVE(MAJORITY, 0x8f1bbcdc, NEXT, 50);
    FIVE(MAJORITY, 0x8f1bbcdc, NEXT, 55);
    FIVE(PARITY, 0xca62c1d6, NEXT, 60);
    FIVE(PARITY, 0xca62c1d6, NEXT, 65);
    FIVE(PARITY, 0xca62c1d6, NEXT, 70);
    FIVE(PARITY, 0xca62c1d6, NEXT, 75);
    state[0] += a;
    state[1] += b;
    state[2] += c;
    state[3] += d;
    state[4] += e;
}

static void begin(struct sha1 *sha1) {
    *sha1 = (struct sha1){.state = {0x67452301, 0xefcdab89, 0x98badcfe, 0x10325476, 0xc3d2e1f0}};
}

static void add(struct sha1 *sha1, const unsigned char *bytes, size_t count) {
    size_t held = sha1->length % 64;
    sha1->length += count;
    if (held && held + count >= 64) {
        memcpy(sha1->block + held, bytes, 64 - held);
        add_block(sha1->state, sha1->block);
        bytes += 64 - held;
        count -= 64 - held;
        held = 0;
    }
    for (; held == 0 && count >= 64; bytes += 64, count -= 64)
        add_block(sha1->state, bytes);
    memcpy(sha1->block + held, bytes, count);
}

static void end(struct sha1 *sha1, unsigned char digest[DIGEST]) {
    static const unsigned char padding[64] = {0x80};
    uint64_t bits = __builtin_bswap64(8 * sha1->length);
    add(sha1, padding, 1 + (119 - sha1->length % 64) % 64);
    add(sha1, (const unsigned char *)&bits, 8);
    for (int i = 0; i < DIGEST; i++)
        digest[i] = (unsigned char)(sha1->state[i / 4] >> (24 - i % 4 * 8));
}

static void put_base32(const unsigned char digest[DIGEST], char text[BASE32]) {
    for (int i = 0; i < BASE32; i++) {
        int at = 5 * i / 8, past = 5 * i % 8;
        unsigned pair = (unsigned)digest[at] << 8 | (at + 1 < DIGEST ? digest[at + 1] : 0U);
        text[i] = "ABCDEFGHIJKLMNOPQRSTUVWXYZ234567"[pair >> (11 - past) & 31];
    }
}

static void fail(const char *why) {
    fprintf(stderr, "walk: %s\n", why);
    exit(1);
}

/* Reads on, after what isn't used yet. Returns whether there was anything. */
static int read_on(struct reader *in) {
    memmove(in->bytes, in->bytes + in->start, in->end - in->start);
    in->offset += in->start;
    in->end -= in->start;
    in->start = 0;
    ssize_t count = read(in->file, in->bytes + in->end, sizeof in->bytes - in->end);
    if (count < 0)
        fail("the file can't be read");
    in->end += (size_t)count;
    return count > 0;
}

/* The value of a line if its name is this one, or NULL. */
static const char *value_of(const char *line, const char *colon, const char *name) {
    size_t count = strlen(name);
    return (size_t)(colon - line) == count && strncasecmp(line, name, count) == 0 ? colon + 2 : NULL;
}

static void take_line(struct head *head, char *line, char *line_end) {
    char *colon = memchr(line, ':', (size_t)(line_end - line));
    const char *value;
    *line_end = 0;
    if (colon == NULL || colon[1] != ' ')
        fail("a line without a name");
    if ((value = value_of(line, colon, "WARC-Type")))
        head->type = value;
    else if ((value = value_of(line, colon, "WARC-Date")))
        head->date = value;
    else if ((value = value_of(line, colon, "WARC-Record-ID")))
        head->id = value;
    else if ((value = value_of(line, colon, "WARC-Target-URI")))
        head->target = value;
    else if ((value = value_of(line, colon, "WARC-Block-Digest")))
        head->digest = value;
    else if ((value = value_of(line, colon, "Content-Length")))
        head->length = strtoull(value, NULL, 10);
}

/* Reads the head of a record. Returns 0 at the end of the file. */
static int read_head(struct reader *in, struct head *head) {
    char *blank;
    while ((blank = memmem(in->bytes + in->start, in->end - in->start, "\r\n\r\n", 4)) == NULL)
        if (!read_on(in)) {
            if (in->start != in->end)
                fail("the file ends in a head");
            return 0;
        }
    char *line = in->bytes + in->start;
    if (strncmp(line, "WARC/1.1\r\n", 10) != 0)
        fail("no record of WARC/1.1");
    *head = (struct head){.target = "-", .start = in->offset + in->start};
    for (line += 10; line < blank + 2;) {
        char *line_end = memchr(line, '\r', (size_t)(blank + 1 - line));
        take_line(head, line, line_end);
        line = line_end + 2;
    }
    if (!head->type || !head->date || !head->id || !head->digest || strncmp(head->digest, "sha1:", 5) != 0 ||
        strlen(head->digest) != 5 + BASE32)
        fail("a head lacks a field");
    head->digest += 5;
    in->start = (size_t)(blank + 4 - in->bytes);
    return 1;
}

/* Hashes a block, writes its digest in base32, and reads the end of its record. */
static void hash_block(struct reader *in, uint64_t length, char text[BASE32]) {
    struct sha1 sha1;
    unsigned char digest[DIGEST];
    begin(&sha1);
    while (length > 0) {
        if (in->start == in->end && !read_on(in))
            fail("the file ends in a block");
        size_t count = in->end - in->start < length ? in->end - in->start : (size_t)length;
        add(&sha1, (const unsigned char *)in->bytes + in->start, count);
        in->start += count;
        length -= count;
    }
    end(&sha1, digest);
    put_base32(digest, text);
    while (in->end - in->start < 4)
        if (!read_on(in))
            fail("the file ends before the end of a record");
    if (memcmp(in->bytes + in->start, "\r\n\r\n", 4) != 0)
        fail("a record without its end");
    in->start += 4;
}

int main(int count, char **words) {
    static struct reader in;
    struct head head;
    char stated[BASE32], digest[BASE32];
    if (count != 2 || (in.file = open(words[1], O_RDONLY)) < 0)
        fail("give one file");
    for (unsigned long position = 0; read_head(&in, &head); position++) {
        if (printf("%lu\t%llu\t%llu\t%s\t%s\t%s\t%s\n", position, (unsigned long long)head.start,
                   (unsigned long long)head.length, head.type, head.date, head.id, head.target) < 0)
            fail("the output can't be written");
        memcpy(stated, head.digest, BASE32);
        hash_block(&in, head.length, digest);
        if (memcmp(stated, digest, BASE32) != 0)
            fail("a block hasn't its digest");
    }
    return fflush(stdout) == 0 ? 0 : 1;
}
