// What crates/bench_store does, over a bare file in C: for a put the record is made and written by one write(2), and for
// a get the whole record is read by one pread(2) at a place that is known. No key is looked up.
// usage: raw FILE KEYS VALUE_BYTES [crc]; with `crc` each record has its checksum, and each get checks it.
#include <fcntl.h>
#include <stdio.h>
#include <stdlib.h>
#include <time.h>
#include <unistd.h>
#include "../slices.h"

enum { HEADER = 22, KEY = 16 };

static int file, checks;
static size_t size, len;
static uint64_t seq, end;
static unsigned char *record, *value;
static uint64_t *places;

static uint64_t now(void) {
    struct timespec t;
    clock_gettime(CLOCK_MONOTONIC, &t);
    return (uint64_t)t.tv_sec * 1000000000u + (uint64_t)t.tv_nsec;
}

static void *taken(size_t bytes) {
    void *p = calloc(bytes ? bytes : 1, 1);
    if (!p) exit(1);
    return p;
}

static void big_endian(unsigned char *to, uint64_t number, int bytes) {
    while (bytes--) {
        to[bytes] = (unsigned char)number;
        number >>= 8;
    }
}

static uint32_t check(void) { return ~by_slices(0xffffffffu, record + 4, size - 4); }

static void put(uint32_t number) {
    uint64_t words[2] = { number, number * 0x9e3779b97f4a7c15u };
    big_endian(record + 4, 5, 4);
    big_endian(record + 8, KEY, 2);
    big_endian(record + 10, len, 4);
    big_endian(record + 14, ++seq, 8);
    memcpy(record + HEADER, words, KEY);
    memcpy(record + HEADER + KEY, value, len);
    big_endian(record, checks ? check() : 0, 4);
    if (write(file, record, size) != (ssize_t)size) exit(1);
    places[number] = end;
    end += size;
}

static uint64_t get(uint32_t number) {
    if (pread(file, record, size, (off_t)places[number]) != (ssize_t)size) exit(1);
    if (checks) {
        unsigned char found[4];
        big_endian(found, check(), 4);
        if (memcmp(found, record, 4)) exit(1);
    }
    return size + record[HEADER];
}

static void shuffle(uint32_t *numbers, size_t count) {
    uint64_t state = 1;
    for (size_t place = 1; place < count; place++) {
        state = state * 6364136223846793005u + 1442695040888963407u;
        size_t other = (size_t)(state >> 33) % (place + 1);
        uint32_t number = numbers[place];
        numbers[place] = numbers[other];
        numbers[other] = number;
    }
}

static void report(const char *call, size_t items, uint64_t all) {
    fprintf(stderr, "%s %llu\n", call, (unsigned long long)(items ? all / items : 0));
}

int main(int argc, char **argv) {
    if (argc < 4) return 2;
    size_t items = strtoul(argv[2], NULL, 10);
    len = strtoul(argv[3], NULL, 10);
    checks = argc > 4;
    size = HEADER + KEY + len;
    record = taken(size), value = taken(len), places = taken(8 * items);
    memset(value, 7, len);
    uint32_t *order = taken(4 * items);
    for (size_t i = 0; i < items; i++) order[i] = (uint32_t)i;
    fill_table();
    file = open(argv[1], O_RDWR | O_CREAT | O_EXCL | O_APPEND, 0666);
    if (file < 0) return 1;
    uint64_t sum = 0, start = now();
    for (size_t i = 0; i < items; i++) put(order[i]);
    uint64_t all = now() - start;
    report("put", items, all);
    shuffle(order, items);
    start = now();
    for (size_t i = 0; i < items; i++) put(order[i]);
    report("overwrite", items, now() - start);
    shuffle(order, items);
    start = now();
    for (size_t i = 0; i < items; i++) sum += get(order[i]);
    report("get", items, now() - start);
    printf("seq %llu, sum %llu\n", (unsigned long long)seq, (unsigned long long)sum);
    return 0;
}
