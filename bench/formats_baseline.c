// The loops of crates/bench_formats in plain C, over the same bytes: hint rows written and read, requests read, replies
// written. Standard output has the counts and checksums, standard error the nanoseconds of one.
#include <stdio.h>
#include <stdlib.h>
#include <time.h>
#include "slices.h"

static uint32_t crc(const unsigned char *p, size_t n) { return ~by_slices(~0u, p, n); }

static uint64_t now(void) {
    struct timespec t;
    clock_gettime(CLOCK_MONOTONIC, &t);
    return (uint64_t)t.tv_sec * 1000000000u + (uint64_t)t.tv_nsec;
}

typedef struct { unsigned char *at; size_t len, room; } Bytes;

static void append(Bytes *b, const void *from, size_t n) {
    if (b->room - b->len < n) {
        b->room = b->room * 2 > b->len + n ? b->room * 2 : b->len + n;
        b->at = realloc(b->at, b->room);
        if (!b->at) exit(1);
    }
    memcpy(b->at + b->len, from, n);
    b->len += n;
}

static void put_be(unsigned char *to, uint64_t n, int bytes) {
    while (bytes--) { to[bytes] = (unsigned char)n; n >>= 8; }
}

static uint64_t be(const unsigned char *from, int bytes) {
    uint64_t n = 0;
    while (bytes--) n = n << 8 | *from++;
    return n;
}

static void header(unsigned char *to, uint32_t moment, uint32_t ksz, uint32_t vsz, uint64_t at, uint64_t seq, uint32_t check) {
    put_be(to, moment, 4);
    put_be(to + 4, ksz, 2);
    put_be(to + 6, vsz, 4);
    put_be(to + 10, at, 8);
    put_be(to + 18, seq, 8);
    put_be(to + 26, check, 4);
}

static const char key[] = "sixteen-byte-key";

static void write_hint(Bytes *out, uint32_t items) {
    unsigned char head[30];
    uint32_t check = ~0u;
    for (uint32_t i = 0; i < items; i++) {
        header(head, 5, 16, 100, (uint64_t)i * 138, (uint64_t)i + 1, 0xaff443c2u);
        append(out, head, 30);
        append(out, key, 16);
        check = by_slices(check, head, 30);
        check = by_slices(check, (const unsigned char *)key, 16);
    }
    header(head, 0, 0, 0, (uint64_t)items * 138, items, ~check);
    append(out, head, 30);
}

// The rows of a good hint, 0 of any other.
static uint64_t read_hint(const unsigned char *p, size_t n) {
    uint64_t rows = 0, good = 1;
    if (n < 30) return 0;
    const unsigned char *end = p + n - 30, *q = p;
    uint64_t covered = be(end + 10, 8);
    for (; q < end; rows++) {
        if (end - q < 30) return 0;
        uint64_t ksz = be(q + 4, 2), vsz = be(q + 6, 4), at = be(q + 10, 8), seq = be(q + 18, 8);
        if (ksz == 0 || (uint64_t)(end - q) < 30 + ksz) return 0;
        if (seq == 0 || seq >> 63 || (vsz > 16777216 && vsz != 4294967295u)) good = 0;
        if (at + 22 + ksz + (vsz == 4294967295u ? 0 : vsz) > covered) good = 0;
        q += 30 + ksz;
    }
    if (be(end + 18, 8) != rows || crc(p, (size_t)(end - p)) != be(end + 26, 4) || !good) return 0;
    uint64_t sum = 0;
    for (q = p; q < end; q += 30 + be(q + 4, 2))
        sum += be(q + 10, 8) ^ be(q + 18, 8);
    return sum ? rows : rows;
}

static const unsigned char *number(const unsigned char *p, const unsigned char *end, char stop, uint32_t *n) {
    *n = 0;
    while (p < end && *p >= '0' && *p <= '9' && *n <= 16777216) *n = *n * 10 + (uint32_t)(*p++ - '0');
    return p < end && *p == stop ? p + 1 : NULL;
}

// Reads the requests one by one, and copies each key and value as a server must.
static uint32_t read_requests(const unsigned char *p, size_t n, uint32_t *puts) {
    const unsigned char *end = p + n;
    uint32_t found = 0, ksz, vsz;
    *puts = 0;
    while (end - p >= 4) {
        int is_put = !memcmp(p, "PUT ", 4);
        if (!is_put && memcmp(p, "GET ", 4)) break;
        if (!(p = number(p + 4, end, is_put ? ' ' : '\n', &ksz))) break;
        vsz = 0;
        if (is_put && !(p = number(p, end, '\n', &vsz))) break;
        if ((size_t)(end - p) < (size_t)ksz + vsz + 1 || p[ksz + vsz] != '\n') break;
        unsigned char *k = malloc(ksz), *v = is_put ? malloc(vsz + 1) : NULL;
        if (!k || (is_put && !v)) exit(1);
        memcpy(k, p, ksz);
        if (v) memcpy(v, p + ksz, vsz);
        *puts += (uint32_t)is_put;
        free(k);
        free(v);
        p += ksz + vsz + 1;
        found++;
    }
    return found;
}

static size_t decimal(char *to, uint64_t n) {
    char digits[20];
    size_t len = 0;
    do digits[len++] = (char)('0' + n % 10); while (n /= 10);
    for (size_t i = 0; i < len; i++) to[i] = digits[len - 1 - i];
    return len;
}

int main(int argc, char **argv) {
    uint32_t items = argc > 1 ? (uint32_t)strtoul(argv[1], NULL, 10) : 1000, puts;
    char line[32];
    Bytes hint = {0}, requests = {0}, replies = {0};
    fill_table();
    uint64_t start = now();
    write_hint(&hint, items);
    uint64_t written = now() - start;
    printf("hint %u rows %08x\n", items, crc(hint.at, hint.len));
    start = now();
    uint64_t rows = read_hint(hint.at, hint.len);
    uint64_t read = now() - start;
    printf("hint read %llu rows\n", (unsigned long long)rows);
    for (uint32_t i = 0; i < items; i++) {
        if (i % 2 == 0) {
            append(&requests, "PUT 16 100\n", 11);
            append(&requests, key, 16);
            for (int j = 0; j < 10; j++) append(&requests, "0123456789", 10);
            append(&requests, "\n", 1);
        } else {
            append(&requests, "GET 16\n", 7);
            append(&requests, key, 16);
            append(&requests, "\n", 1);
        }
    }
    printf("requests %u %08x\n", items, crc(requests.at, requests.len));
    start = now();
    uint32_t found = read_requests(requests.at, requests.len, &puts);
    uint64_t asked = now() - start;
    printf("requests read %u, %u puts\n", found, puts);
    start = now();
    for (uint32_t i = 0; i < items; i++) {
        if (i % 2 == 0) {
            memcpy(line, "OK ", 3);
            size_t len = 3 + decimal(line + 3, i);
            line[len] = '\n';
            append(&replies, line, len + 1);
        } else {
            append(&replies, "VALUE 100\n", 10);
            append(&replies, requests.at + 27, 100);
            append(&replies, "\n", 1);
        }
    }
    uint64_t replied = now() - start;
    printf("replies %u %08x\n", items, crc(replies.at, replies.len));
    if (items == 0) items = 1;
    fprintf(stderr, "hint-write %llu\nhint-read %llu\nrequest-read %llu\nreply-write %llu\n",
        (unsigned long long)(written / items), (unsigned long long)(read / items),
        (unsigned long long)(asked / items), (unsigned long long)(replied / items));
    return 0;
}
