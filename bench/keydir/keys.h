// The keys, versions and orders of crates/bench_keydir, for the programs in C.
#include <stdint.h>
#include <stdio.h>
#include <stdlib.h>
#include <string.h>
#include <time.h>

typedef struct {
    uint64_t seq, at;
    uint32_t moment, file, size, crc;
    uint8_t gone;
} Version;

typedef struct { uint8_t bytes[16]; } Key16;

typedef struct {
    uint32_t *counted, *shuffled;
    Key16 *wanted;
} Orders;

static uint64_t now(void) {
    struct timespec t;
    clock_gettime(CLOCK_MONOTONIC, &t);
    return (uint64_t)t.tv_sec * 1000000000u + (uint64_t)t.tv_nsec;
}

static void *taken(size_t bytes) {
    void *p = malloc(bytes ? bytes : 1);
    if (!p) exit(1);
    return p;
}

static Key16 key_of(uint32_t number) {
    uint64_t words[2] = { number, number * 0x9e3779b97f4a7c15u };
    Key16 key;
    memcpy(key.bytes, words, 16);
    return key;
}

static inline Version version_of(uint64_t seq, int gone) {
    return (Version){ seq, seq, 5, 1, 138, 7, (uint8_t)gone };
}

static uint64_t folded(uint64_t a, uint64_t b) {
    unsigned __int128 product = (unsigned __int128)a * b;
    return (uint64_t)product ^ (uint64_t)(product >> 64);
}

// A hash of 1 to 23 bytes.
static uint64_t hash_of(const uint8_t *key, size_t len) {
    uint64_t a = 0, b = 0;
    if (len >= 8) {
        memcpy(&a, key, 8);
        memcpy(&b, key + len - 8, 8);
        if (len > 16) {
            uint64_t c;
            memcpy(&c, key + 8, 8);
            a = folded(a ^ 0x243f6a8885a308d3u, c ^ 0x13198a2e03707344u);
        }
    } else {
        for (size_t i = 0; i < len; i++) a = a << 8 | key[i];
    }
    return folded(folded(a ^ 0xa4093822299f31d0u, b ^ 0x082efa98ec4e6c89u) ^ len, 0x9e3779b97f4a7c15u);
}

static void shuffle(uint32_t *numbers, size_t count) {
    uint64_t state = 1;
    for (size_t place = 1; place < count; place++) {
        state = state * 6364136223846793005u + 1442695040888963407u;
        size_t other = (size_t)(state >> 33) % (place + 1);
        uint32_t number = numbers[place];
        numbers[place] = numbers[other];
        numbers[other] = number;
    }
}

static Orders orders_of(size_t items) {
    Orders o = { taken(4 * items), taken(4 * items), taken(sizeof(Key16) * items) };
    for (size_t i = 0; i < items; i++) o.counted[i] = o.shuffled[i] = (uint32_t)i;
    shuffle(o.shuffled, items);
    uint32_t *again = taken(4 * items);
    memcpy(again, o.shuffled, 4 * items);
    shuffle(again, items);
    for (size_t i = 0; i < items; i++) o.wanted[i] = key_of(again[i]);
    free(again);
    return o;
}

// What a run came to, and how long all calls of a kind took.
typedef struct {
    size_t keys, dropped;
    uint64_t sum, put, overwrite, get, waiting, sweep;
} Run;

static inline void report(const char *name, size_t items, const Run *run) {
    printf("%s: %zu keys, sum %llu, %zu dropped\n", name, run->keys, (unsigned long long)run->sum, run->dropped);
    const char *calls[4] = { "put", "overwrite", "get", "get-waiting" };
    uint64_t times[4] = { run->put, run->overwrite, run->get, run->waiting };
    for (int i = 0; i < 4; i++)
        fprintf(stderr, "%s %s %llu\n", name, calls[i], (unsigned long long)(items ? times[i] / items : 0));
    if (run->dropped) fprintf(stderr, "%s sweep %llu\n", name, (unsigned long long)(run->sweep / 1000));
}

static inline int held(size_t keys) {
    printf("%zu keys are held\n", keys);
    fflush(stdout);
    while (getchar() != EOF) {}
    return 0;
}
